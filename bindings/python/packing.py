"""Packs the folder kin for pip, into a wheel: an archive of the package with three pages about it. docs/DECISIONS.md says why."""

from __future__ import annotations

import base64
import hashlib
import runpy
import sysconfig
import zipfile
from pathlib import Path

HERE = Path(__file__).resolve().parent
PACKAGE = HERE / "kin"
LIBRARY = PACKAGE / "libkin.so"

VERSION = runpy.run_path(str(PACKAGE / "_version.py"))["__version__"]

# Any Python 3, and the kind of machine that this one is.
TAG = "py3-none-" + sysconfig.get_platform().replace("-", "_").replace(".", "_")

METADATA = f"""\
Metadata-Version: 2.1
Name: kin
Version: {VERSION}
Summary: Every chain of kinship between two persons in a file of links, and every ring of one, from the proved library
Requires-Python: >=3.9
"""

WHEEL = f"""\
Wheel-Version: 1.0
Generator: packing.py
Root-Is-Purelib: false
Tag: {TAG}
"""


def build_wheel(wheel_directory: str, config_settings: object = None, metadata_directory: object = None) -> str:
    """Writes the wheel into the folder and answers its name. pip calls it so."""
    if not LIBRARY.is_file():
        raise SystemExit(f"{LIBRARY} is missing: run bindings/python/build.sh first")
    files = {f"kin/{file.name}": file.read_bytes() for file in [*sorted(PACKAGE.glob("*.py")), PACKAGE / "py.typed", LIBRARY]}
    about = f"kin-{VERSION}.dist-info"
    files[f"{about}/METADATA"] = METADATA.encode()
    files[f"{about}/WHEEL"] = WHEEL.encode()
    files[f"{about}/RECORD"] = _record(files, f"{about}/RECORD").encode()
    wheel = f"kin-{VERSION}-{TAG}.whl"
    with zipfile.ZipFile(Path(wheel_directory) / wheel, "w", zipfile.ZIP_DEFLATED) as archive:
        for name, content in files.items():
            # Without the time of day, so that the same package is always the same bytes.
            archive.writestr(zipfile.ZipInfo(name), content, zipfile.ZIP_DEFLATED)
    return wheel


def _record(files: dict[str, bytes], own_name: str) -> str:
    """A line for each file, its name, digest and length; for the record itself the name only."""
    lines = [f"{name},{_digest(content)},{len(content)}\n" for name, content in files.items()]
    return "".join(lines) + f"{own_name},,\n"


def _digest(content: bytes) -> str:
    return "sha256=" + base64.urlsafe_b64encode(hashlib.sha256(content).digest()).rstrip(b"=").decode()
