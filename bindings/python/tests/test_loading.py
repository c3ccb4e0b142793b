"""Which shared object is loaded, and what is said of one that is missing, of another version or no library at all."""

import os
import shutil
import subprocess
import sys
import tempfile
import unittest
from pathlib import Path

import gas_day
from gas_day import VERSION

MODULE = Path(gas_day.__file__).resolve()
LIBRARY = Path(gas_day._library._name).resolve()
FILE = f"libgas_day.so.{VERSION}"


def run(module, *command, **variables):
    """A new process that finds the module there, with these variables in its environment."""
    others = {name: value for name, value in os.environ.items() if name not in ("GAS_DAY_LIBRARY", "LD_LIBRARY_PATH")}
    environment = {**others, "PYTHONPATH": str(Path(module).parent), **{name: str(value) for name, value in variables.items()}}
    return subprocess.run([sys.executable, "-B", *command], capture_output=True, text=True, env=environment, check=False)


def imported(module, **variables):
    """What such a process prints when it imports the module and asks which library it has."""
    done = run(module, "-c", "import gas_day; print(gas_day._library._name, gas_day.default_thresholds(1, 0).upper)", **variables)
    return done.stdout.strip() or done.stderr.strip().splitlines()[-1]


class Loading(unittest.TestCase):
    def setUp(self):
        folder = tempfile.TemporaryDirectory()
        self.addCleanup(folder.cleanup)
        self.folder = Path(folder.name).resolve()

    def built(self, name, text):
        source, library = self.folder / "other.c", self.folder / name
        source.write_text(text)
        subprocess.run(["gcc", "-shared", "-fPIC", "-o", str(library), str(source)], check=True)
        return library

    def test_the_one_that_is_named(self):
        copy = shutil.copy(LIBRARY, self.folder / "copy.so")
        self.assertEqual(imported(MODULE, GAS_DAY_LIBRARY=copy), f"{copy} 22000000")

    def module_in(self, folder):
        (self.folder / folder).mkdir(parents=True)
        return shutil.copy(MODULE, self.folder / folder / "gas_day.py")

    def test_the_one_of_the_repository(self):
        module = self.module_in("bindings/python")
        (self.folder / "target/bindings/lib").mkdir(parents=True)
        library = shutil.copy(LIBRARY, self.folder / "target/bindings/lib" / FILE)
        self.assertEqual(imported(module), f"{library} 22000000")

    def test_the_one_of_a_prefix(self):
        module = self.module_in("lib/python3.9/site-packages")
        library = shutil.copy(LIBRARY, self.folder / "lib" / FILE)
        self.assertEqual(imported(module), f"{library} 22000000")

    def test_the_one_that_the_system_finds(self):
        module = self.module_in("elsewhere")
        shutil.copy(LIBRARY, self.folder / FILE)
        self.assertEqual(imported(module, LD_LIBRARY_PATH=self.folder), f"{FILE} 22000000")

    def test_not_one_that_lies_about(self):
        module = self.module_in("some/where")
        for folder in (self.folder, self.folder / "some", self.folder / "some/where"):
            shutil.copy(LIBRARY, folder / FILE)
        self.assertRegex(imported(module), "^ImportError: the gas_day library cannot be loaded")

    def test_none(self):
        module = self.module_in("alone")
        for named in ({}, {"GAS_DAY_LIBRARY": ""}, {"GAS_DAY_LIBRARY": self.folder / "none.so"}, {"GAS_DAY_LIBRARY": __file__}):
            self.assertRegex(imported(module, **named), "^ImportError: the gas_day library cannot be loaded: .*bindings/build makes it")

    def test_none_from_a_shell(self):
        done = run(self.module_in("alone"), "-m", "gas_day", "--help")
        self.assertEqual((done.returncode, done.stdout), (2, ""))
        self.assertRegex(done.stderr, r"\Agas_day: the gas_day library cannot be loaded: .*\n\Z")

    def test_another_version(self):
        for version in (VERSION - 1, VERSION + 1):
            library = self.built(f"of_version_{version}.so", f"unsigned long gas_day_version(void) {{ return {version}; }}")
            words = f"ImportError: {library} is of version {version}, and this module is written for version {VERSION}"
            self.assertEqual(imported(MODULE, GAS_DAY_LIBRARY=library), words)

    def test_another_library(self):
        library = self.built("other.so", "int other;")
        self.assertRegex(imported(MODULE, GAS_DAY_LIBRARY=library), "^ImportError: the gas_day library cannot be loaded: .*gas_day_version")

    def test_an_older_library_of_this_version(self):
        """Each lacks one call, whatever else it has, as an older library lacks a call that is added to this version."""
        calls = list(gas_day._CALLS)
        for number, lacking in enumerate(calls):
            others = "".join(f"void {call}(void) {{}} " for call in calls if call != lacking)
            library = self.built(f"older{number}.so", f"unsigned long gas_day_version(void) {{ return {VERSION}; }} {others}")
            words = f"{library} has no {lacking}: it is older than this module; bindings/build makes a new one, and GAS_DAY_LIBRARY may name it"
            self.assertEqual(imported(MODULE, GAS_DAY_LIBRARY=library), f"ImportError: {words}")
        done = run(MODULE, "-m", "gas_day", "--help", GAS_DAY_LIBRARY=library)
        self.assertEqual((done.returncode, done.stdout, done.stderr), (2, "", f"gas_day: {words}\n"))


if __name__ == "__main__":
    unittest.main()
