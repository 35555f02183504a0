/* The calls of ecrt.h over two simulated drives: each frame that is sent steps them, and the next one
 * that is received has their answers. From frame 40 on three frames in a row come back empty, as where
 * a cable is bad, and then all are whole again. */
#include "ecrt.h"

#include "bench_drive.h"

#include <stddef.h>

enum { SLAVES = 2, ENTRY = 14, LOST_FROM = 40, LOST = 3 };

struct ec_slave_config {
    unsigned int number;
};

struct ec_domain {
    uint8_t data[SLAVES * ENTRY];
    unsigned int frames;
};

struct ec_master {
    ec_domain_t domain;
    struct ec_slave_config slaves[SLAVES];
    unsigned int configured;
    bench_drive drives[SLAVES];
};

static struct ec_master the_master;

/* Where an object stands among the data of a slave: what the drive takes, then what it answers. */
static int place_of(uint16_t index)
{
    switch (index) {
    case 0x6040: return 0;
    case 0x607a: return 2;
    case 0x6060: return 6;
    case 0x6041: return 7;
    case 0x6064: return 9;
    case 0x6061: return 13;
    default: return -1;
    }
}

ec_master_t *ecrt_request_master(unsigned int master_index)
{
    int i;
    for (i = 0; i < SLAVES; i++) bench_drive_begin(&the_master.drives[i], 0, 0);
    return master_index == 0 ? &the_master : NULL;
}

void ecrt_release_master(ec_master_t *master) { master->configured = 0; }
ec_domain_t *ecrt_master_create_domain(ec_master_t *master) { return &master->domain; }
uint8_t *ecrt_domain_data(ec_domain_t *domain) { return domain->data; }

ec_slave_config_t *ecrt_master_slave_config(ec_master_t *master, uint16_t alias, uint16_t position,
                                            uint32_t vendor_id, uint32_t product_code)
{
    if (alias != 0 || position >= SLAVES || vendor_id == 0 || product_code == 0) return NULL;
    master->slaves[position].number = position;
    master->configured++;
    return &master->slaves[position];
}

int ecrt_slave_config_pdos(ec_slave_config_t *sc, unsigned int n_syncs, const ec_sync_info_t syncs[])
{
    unsigned int sync, pdo, entry;
    (void)sc;
    for (sync = 0; sync < n_syncs && syncs[sync].index != 0xff; sync++)
        for (pdo = 0; pdo < syncs[sync].n_pdos; pdo++)
            for (entry = 0; entry < syncs[sync].pdos[pdo].n_entries; entry++)
                if (place_of(syncs[sync].pdos[pdo].entries[entry].index) < 0) return -1;
    return 0;
}

int ecrt_slave_config_reg_pdo_entry(ec_slave_config_t *sc, uint16_t entry_index, uint8_t entry_subindex,
                                    ec_domain_t *domain, unsigned int *bit_position)
{
    const int place = place_of(entry_index);
    (void)domain;
    if (bit_position != NULL) *bit_position = 0;
    return place < 0 || entry_subindex != 0 ? -1 : (int)sc->number * ENTRY + place;
}

int ecrt_slave_config_sdo8(ec_slave_config_t *sc, uint16_t index, uint8_t subindex, uint8_t value)
{
    (void)sc;
    return index == 0x6060 && subindex == 0 && value == 8 ? 0 : -1;
}

void ecrt_slave_config_dc(ec_slave_config_t *sc, uint16_t assign_activate, uint32_t sync0_cycle,
                          int32_t sync0_shift, uint32_t sync1_cycle, int32_t sync1_shift)
{
    (void)sc, (void)assign_activate, (void)sync0_cycle, (void)sync0_shift, (void)sync1_cycle;
    (void)sync1_shift;
}

int ecrt_master_activate(ec_master_t *master) { return master->configured == SLAVES ? 0 : -1; }
void ecrt_master_application_time(ec_master_t *master, uint64_t app_time) { (void)master, (void)app_time; }
void ecrt_master_sync_reference_clock(ec_master_t *master) { (void)master; }
void ecrt_master_sync_slave_clocks(ec_master_t *master) { (void)master; }
void ecrt_master_receive(ec_master_t *master) { (void)master; }
void ecrt_domain_queue(ec_domain_t *domain) { domain->frames++; }

static int is_lost(const ec_domain_t *domain)
{
    return domain->frames >= LOST_FROM && domain->frames < LOST_FROM + LOST;
}

void ecrt_domain_process(ec_domain_t *domain)
{
    int i;
    if (is_lost(domain)) return;
    for (i = 0; i < SLAVES; i++) {
        const motion_drive_in answer = bench_drive_answer(&the_master.drives[i]);
        uint8_t *data = domain->data + i * ENTRY;
        EC_WRITE_U16(data + place_of(0x6041), answer.statusword);
        EC_WRITE_S32(data + place_of(0x6064), answer.actual);
        EC_WRITE_S8(data + place_of(0x6061), answer.mode_display);
    }
}

void ecrt_domain_state(const ec_domain_t *domain, ec_domain_state_t *state)
{
    state->working_counter = is_lost(domain) ? 0 : 3 * SLAVES;
    state->wc_state = is_lost(domain) ? EC_WC_ZERO : EC_WC_COMPLETE;
    state->redundancy_active = 0;
}

void ecrt_master_send(ec_master_t *master)
{
    int i;
    if (is_lost(&master->domain)) return;
    for (i = 0; i < SLAVES; i++) {
        const uint8_t *data = master->domain.data + i * ENTRY;
        motion_drive_out given;
        given.controlword = EC_READ_U16(data + place_of(0x6040));
        given.target = EC_READ_S32(data + place_of(0x607a));
        given.mode = EC_READ_S8(data + place_of(0x6060));
        bench_drive_step(&master->drives[i], &given);
    }
}
