/* A stub of the IgH EtherCAT master's application interface, version 1.5: the types, calls and macros
 * that c/ethercat.c uses, by their names and shapes there, so that it is compiled and run without a
 * master. bus.c has the calls, over simulated drives. A real program takes the master's own ecrt.h. */
#ifndef __ECRT_H__
#define __ECRT_H__

#include <stdint.h>

typedef struct ec_master ec_master_t;
typedef struct ec_domain ec_domain_t;
typedef struct ec_slave_config ec_slave_config_t;

typedef enum { EC_DIR_INVALID, EC_DIR_OUTPUT, EC_DIR_INPUT, EC_DIR_BOTH, EC_DIR_COUNT } ec_direction_t;
typedef enum { EC_WD_DEFAULT, EC_WD_ENABLE, EC_WD_DISABLE } ec_watchdog_mode_t;
typedef enum { EC_WC_ZERO = 0, EC_WC_INCOMPLETE, EC_WC_COMPLETE } ec_wc_state_t;

typedef struct {
    uint16_t index;
    uint8_t subindex;
    uint8_t bit_length;
} ec_pdo_entry_info_t;

typedef struct {
    uint16_t index;
    unsigned int n_entries;
    ec_pdo_entry_info_t const *entries;
} ec_pdo_info_t;

typedef struct {
    uint8_t index;
    ec_direction_t dir;
    unsigned int n_pdos;
    ec_pdo_info_t const *pdos;
    ec_watchdog_mode_t watchdog_mode;
} ec_sync_info_t;

typedef struct {
    unsigned int working_counter;
    ec_wc_state_t wc_state;
    unsigned int redundancy_active;
} ec_domain_state_t;

ec_master_t *ecrt_request_master(unsigned int master_index);
void ecrt_release_master(ec_master_t *master);
ec_domain_t *ecrt_master_create_domain(ec_master_t *master);
ec_slave_config_t *ecrt_master_slave_config(ec_master_t *master, uint16_t alias, uint16_t position,
                                            uint32_t vendor_id, uint32_t product_code);
int ecrt_slave_config_pdos(ec_slave_config_t *sc, unsigned int n_syncs, const ec_sync_info_t syncs[]);
int ecrt_slave_config_reg_pdo_entry(ec_slave_config_t *sc, uint16_t entry_index, uint8_t entry_subindex,
                                    ec_domain_t *domain, unsigned int *bit_position);
int ecrt_slave_config_sdo8(ec_slave_config_t *sc, uint16_t index, uint8_t subindex, uint8_t value);
void ecrt_slave_config_dc(ec_slave_config_t *sc, uint16_t assign_activate, uint32_t sync0_cycle,
                          int32_t sync0_shift, uint32_t sync1_cycle, int32_t sync1_shift);
int ecrt_master_activate(ec_master_t *master);
uint8_t *ecrt_domain_data(ec_domain_t *domain);
void ecrt_master_application_time(ec_master_t *master, uint64_t app_time);
void ecrt_master_sync_reference_clock(ec_master_t *master);
void ecrt_master_sync_slave_clocks(ec_master_t *master);
void ecrt_master_receive(ec_master_t *master);
void ecrt_master_send(ec_master_t *master);
void ecrt_domain_process(ec_domain_t *domain);
void ecrt_domain_queue(ec_domain_t *domain);
void ecrt_domain_state(const ec_domain_t *domain, ec_domain_state_t *state);

/* The data of a domain have the low byte first; these are for a host that has it first too. */
#define EC_READ_S8(data) ((int8_t) * ((uint8_t *)(data)))
#define EC_READ_U16(data) ((uint16_t)(((uint8_t *)(data))[0] | ((uint8_t *)(data))[1] << 8))
#define EC_READ_S32(data) \
    ((int32_t)((uint32_t)EC_READ_U16(data) | (uint32_t)EC_READ_U16((uint8_t *)(data) + 2) << 16))
#define EC_WRITE_S8(data, value) \
    do { *((int8_t *)(data)) = (int8_t)(value); } while (0)
#define EC_WRITE_U16(data, value) \
    do { \
        ((uint8_t *)(data))[0] = (uint8_t)(value); \
        ((uint8_t *)(data))[1] = (uint8_t)((uint16_t)(value) >> 8); \
    } while (0)
#define EC_WRITE_S32(data, value) \
    do { \
        EC_WRITE_U16(data, (uint32_t)(value) & 0xffff); \
        EC_WRITE_U16((uint8_t *)(data) + 2, (uint32_t)(value) >> 16); \
    } while (0)

#endif
