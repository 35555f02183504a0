"""Tests of reading configurations: units, limits, and the option --config of the tools."""

import pathlib
import tempfile
import unittest
from fractions import Fraction

from test_mistakes import BASE
from tool_runner import EXAMPLES, run

from motion_tools.config import ConfigError, config_of, units_in

ST = EXAMPLES / "structured-text" / "structured-text"


class Configurations(unittest.TestCase):

    def test_what_is_read(self):
        config = config_of("m.toml", BASE["config"])
        self.assertEqual((config.cycle_us, config.cycles, config.entries), (1000, 800, 20000))
        self.assertEqual([axis.name for axis in config.axes], ["X", "Y", "A", "B"])
        self.assertEqual(config.axes[0].increment, Fraction(1, 1000))
        self.assertEqual(config.axes[0].dmax, 5000)
        self.assertEqual(config.groups, {"G": ["A", "B"]})
        self.assertEqual(config.tables[0][1], (100, 50))
        self.assertEqual(config.scales()["Y"].unit, "mm")

    def test_units_of_axes(self):
        text = "# unit: mm\n[[axis]]\nname = 'X'\n[[axis]] # unit: deg\nname = 'R'\n[[group]]\n"
        self.assertEqual(units_in(text), ["mm", "deg"])
        self.assertEqual(units_in("[[axis]]\n[[axis]]\n"), ["units", "units"])
        self.assertEqual(units_in("# the unit is mm\n[[axis]]\n"), ["units"])

    def test_what_is_no_configuration(self):
        for text, wanted in (("[[axis", "isn't TOML"), ("cycle_us = 1000\n", "'axis' is missing"),
                             (BASE["config"].replace("vmax = 1000", "vmax = 12.5"),
                              "12.5 is no quantity")):
            with self.assertRaisesRegex(ConfigError, wanted):
                config_of("m.toml", text)


class Options(unittest.TestCase):
    """--config in the tools."""

    def test_the_picture_is_that_of_its_scale(self):
        with_scale = run("trace_plot", f"{ST}.trace", "--cycle-us", "8000", "--scale", "1e-9mm")
        with_config = run("trace_plot", f"{ST}.trace", "--config", f"{ST}.toml")
        self.assertEqual(with_scale, with_config)

    def test_every_tool_takes_it(self):
        for tool in ("trace_to_table", "trace_to_vcd", "trace_timing", "explain"):
            status, output, faults = run(tool, f"{ST}.trace", "--config", f"{ST}.toml")
            self.assertEqual((status, faults), (0, ""), tool)
        self.assertIn("X setpoint [mm]", run("trace_to_table", f"{ST}.trace", "--config",
                                                f"{ST}.toml")[1])

    def test_of_another_machine(self):
        status, _, faults = run("trace_to_table", EXAMPLES / "gear" / "gear.trace", "--config",
                                f"{ST}.toml")
        self.assertEqual(status, 2)
        self.assertIn("has no axis X, so it isn't of this machine", faults)

    def test_faulty_files(self):
        with tempfile.TemporaryDirectory() as folder:
            file = pathlib.Path(folder) / "m.toml"
            file.write_text("cycle_us = 1000\n")
            status, _, faults = run("trace_to_table", f"{ST}.trace", "--config", file)
            self.assertEqual(status, 2)
            self.assertIn("it is no configuration", faults)
        self.assertEqual(run("trace_to_table", f"{ST}.trace", "--config", "no_such")[0], 4)


if __name__ == "__main__":
    unittest.main()
