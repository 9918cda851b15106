"""Tests of the packing: what lies in the wheel, and what is said if the library is missing."""

import shutil
import subprocess
import sys
import tempfile
import unittest
import zipfile
from pathlib import Path

import kin
import packing

HERE = Path(__file__).resolve().parent


class Packing(unittest.TestCase):
    def setUp(self):
        folder = tempfile.TemporaryDirectory()
        self.addCleanup(folder.cleanup)
        self.folder = Path(folder.name)

    def packed(self):
        """The wheel's name, and each file in it with what it holds."""
        name = packing.build_wheel(str(self.folder))
        with zipfile.ZipFile(self.folder / name) as wheel:
            return name, {file: wheel.read(file) for file in wheel.namelist()}

    def test_the_package_and_its_library_are_in_it(self):
        _, files = self.packed()
        carried = {file.name for file in (HERE / "kin").iterdir() if file.is_file()}
        self.assertLessEqual({"__init__.py", "py.typed", "libkin.so"}, carried)
        self.assertEqual({file[len("kin/"):] for file in files if file.startswith("kin/")}, carried)
        for name in carried:
            self.assertEqual(files[f"kin/{name}"], (HERE / "kin" / name).read_bytes())

    def test_version_and_machine(self):
        name, files = self.packed()
        _, version, python, interface, machine = name[:-len(".whl")].split("-")
        self.assertEqual((version, python, interface), (kin.__version__, "py3", "none"))
        self.assertNotEqual(machine, "any")
        self.assertIn(f"\nVersion: {version}\n".encode(), files[f"kin-{version}.dist-info/METADATA"])
        self.assertIn(f"\nTag: py3-none-{machine}\n".encode(), files[f"kin-{version}.dist-info/WHEEL"])

    def test_every_file_is_recorded(self):
        _, files = self.packed()
        record = f"kin-{kin.__version__}.dist-info/RECORD"
        lines = files[record].decode().splitlines()
        self.assertEqual([line.split(",")[0] for line in lines], list(files))
        for line in lines:
            name, digest, length = line.split(",")
            right = ("", "") if name == record else (packing._digest(files[name]), str(len(files[name])))
            self.assertEqual((digest, length), right)

    def test_a_digest_is_written_as_wheels_have_it(self):
        self.assertEqual(packing._digest(b""), "sha256=47DEQpj8HBSa-_TImW-5JCeuQeRkm5NMpJWZG3hSuFU")

    def test_the_same_package_is_the_same_bytes(self):
        again = self.folder / "again"
        again.mkdir()
        name = packing.build_wheel(str(self.folder))
        packing.build_wheel(str(again))
        self.assertEqual((self.folder / name).read_bytes(), (again / name).read_bytes())

    def test_a_library_that_is_not_there(self):
        shutil.copy(HERE / "packing.py", self.folder)
        shutil.copytree(HERE / "kin", self.folder / "kin", ignore=shutil.ignore_patterns("libkin.so"))
        command = [sys.executable, "-c", "import packing; packing.build_wheel('.')"]
        tried = subprocess.run(command, cwd=self.folder, capture_output=True, text=True)
        self.assertEqual(tried.returncode, 1)
        self.assertIn("libkin.so is missing: run bindings/python/build.sh first", tried.stderr)


if __name__ == "__main__":
    unittest.main()
