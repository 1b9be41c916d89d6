"""mypy --strict over the package and over a user's script, and two slips that it has to find."""
import os
import shutil
import subprocess
import tempfile
import unittest

from .running import SOURCE

SCRIPT = '''from pmhost import Device, Differs, LinuxBus, ModelBus, Unknown, Voltage


def order(bus: LinuxBus | ModelBus, voltage: str | Voltage) -> Voltage | None:
    part = Device(bus, 0x58, outputs=2, limits={0: ("3.135V", "3.465V")})
    part.learn(0)
    try:
        part.order_voltage(0, voltage)
        return part.voltage(0)
    except Unknown as unknown:
        print(unknown, unknown.__cause__, unknown.possible)
        raise
    except Differs as differs:
        print(f"{differs.word:04X}" if differs.word is not None else "", part.band(0), part.limits_state(0), part.limits(0))
        raise


found = order(ModelBus(0x58), "3.3V")
print(found.microvolts if found else "", [(it.register, it.confirmed) for it in Device(ModelBus(0x58), 0x58).known_cells()])
'''


@unittest.skipUnless(shutil.which("mypy"), "no mypy here")
class Types(unittest.TestCase):
    @classmethod
    def setUpClass(cls):
        # (the package is looked at once for all scripts)
        cls.cache = cls.enterClassContext(tempfile.TemporaryDirectory())

    def mypy(self, *words):
        ran = subprocess.run(["mypy", "--strict", "--cache-dir", self.cache, *words], capture_output=True, text=True, check=False,
                             env={**os.environ, "MYPYPATH": SOURCE})
        return ran.returncode, ran.stdout

    def test_the_package_and_a_user_s_script(self):
        with tempfile.NamedTemporaryFile("w", suffix=".py") as script:
            script.write(SCRIPT)
            script.flush()
            status, said = self.mypy(os.path.join(SOURCE, "pmhost"), script.name)
        self.assertEqual(status, 0, said)

    def test_slips_of_a_script_are_found(self):
        for right, wrong, said_of in (("voltage: str | Voltage", "voltage: float", "order_voltage"), ("part.learn(0)", "part.learn()", "learn")):
            with tempfile.NamedTemporaryFile("w", suffix=".py") as script:
                script.write(SCRIPT.replace(right, wrong))
                script.flush()
                status, said = self.mypy(script.name)
            with self.subTest(wrong=wrong):
                self.assertEqual(status, 1, said)
                self.assertIn(said_of, said)
