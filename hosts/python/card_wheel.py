#!/usr/bin/env python3
"""Writes the wheel of the package, by PEP 427 and with nothing but Python: card_wheel.py FOLDER, which make wheel calls. It is also the package's build backend (PEP 517), so that pip
builds from this folder without a network. The wheel holds the package with target/lib/libcard.so.0 beside its files, and the licences. The same files give the same bytes: each has one
date, and none is compressed.

VERSION in the environment, the Makefile's, must be the package's own.
"""
from __future__ import annotations

import base64
import hashlib
import os
import pathlib
import re
import sys
import zipfile

HERE = pathlib.Path(__file__).resolve().parent
ROOT = HERE.parent.parent
NAME = "card_table"
TAG = "py3-none-linux_x86_64"

METADATA = """Metadata-Version: 2.4
Name: card-table
Version: {version}
Summary: GPT cards of crew tablets, laid, filled, checked and repaired
License-Expression: MIT
License-File: LICENSE
License-File: NOTICE
Classifier: Operating System :: POSIX :: Linux
Classifier: Programming Language :: Python :: 3
Classifier: Typing :: Typed
Requires-Python: >=3.8
Description-Content-Type: text/plain

{text}
"""

WHEEL = f"""Wheel-Version: 1.0
Generator: card_wheel
Root-Is-Purelib: false
Tag: {TAG}
"""


def version() -> str:
    """The package's version."""
    found = re.search(r'^__version__ = "(.*)"$', (HERE / "card" / "__init__.py").read_text(), re.M)
    if not found or os.environ.get("VERSION", found[1]) != found[1]:
        raise SystemExit(f"wheel: the package has the version {found and found[1]}, and {os.environ.get('VERSION')} was asked for")
    return found[1]


def library() -> bytes:
    """The shared library, which make lib builds."""
    path = ROOT / "target" / "lib" / "libcard.so.0"
    if not path.exists():
        raise SystemExit(f"wheel: there is no {path}: make lib builds it")
    return path.read_bytes()


def about() -> dict[str, bytes]:
    """The files of the dist-info folder but for RECORD. The description is the package's own text before its examples."""
    text = (HERE / "card" / "__init__.py").read_text().split('"""')[1].split(">>>")[0].strip()
    info = f"{NAME}-{version()}.dist-info"
    files = {f"{info}/METADATA": METADATA.format(version=version(), text=text).encode(), f"{info}/WHEEL": WHEEL.encode()}
    return {**files, **{f"{info}/licenses/{name}": (ROOT / name).read_bytes() for name in ("LICENSE", "NOTICE")}}


def contents() -> dict[str, bytes]:
    """Every file of the wheel, the package's first and RECORD last, with the sums of the others."""
    files = {f"card/{path.name}": path.read_bytes() for path in sorted((HERE / "card").iterdir()) if path.suffix == ".py" or path.name == "py.typed"}
    files.update({"card/libcard.so.0": library(), **about()})
    record = f"{NAME}-{version()}.dist-info/RECORD"
    sums = [f"{name},sha256={base64.urlsafe_b64encode(hashlib.sha256(data).digest()).rstrip(b'=').decode()},{len(data)}\n" for name, data in files.items()]
    return {**files, record: ("".join(sums) + f"{record},,\n").encode()}


def write(folder: pathlib.Path) -> str:
    """Writes the wheel into a folder, and gives its name."""
    name = f"{NAME}-{version()}-{TAG}.whl"
    files = contents()
    folder.mkdir(parents=True, exist_ok=True)
    with zipfile.ZipFile(folder / name, "w", zipfile.ZIP_STORED) as wheel:
        for path, data in files.items():
            entry = zipfile.ZipInfo(path, (1980, 1, 1, 0, 0, 0))
            entry.create_system, entry.external_attr = 3, (0o100755 if path.endswith(".so.0") else 0o100644) << 16
            wheel.writestr(entry, data)
    return name


def build_wheel(wheel_directory: str, config_settings: dict[str, str] | None = None, metadata_directory: str | None = None) -> str:
    """What pip calls."""
    return write(pathlib.Path(wheel_directory))


if __name__ == "__main__":
    if len(sys.argv) != 2:
        raise SystemExit("usage: card_wheel.py FOLDER")
    print(pathlib.Path(sys.argv[1]) / write(pathlib.Path(sys.argv[1])))
