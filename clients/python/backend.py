#!/usr/bin/env python3
"""Builds the wheel of machipc with the standard library only, without a package index (PEP 517, PEP 427).

    pip install clients/python
    clients/python/backend.py FOLDER          writes machipc-VERSION-py3-none-any.whl to FOLDER, if there is no pip
"""

import base64
import hashlib
import io
import pathlib
import re
import sys
import tarfile
import time
import zipfile

HERE = pathlib.Path(__file__).resolve().parent
PROJECT = (HERE / "pyproject.toml").read_text()


def field(name):
    """Returns the text of a field of the project."""
    return re.search(rf'^{name} = "(.*)"$', PROJECT, re.MULTILINE)[1]


NAME, VERSION = field("name"), field("version")
WHEEL = f"{NAME}-{VERSION}-py3-none-any.whl"
INFO = f"{NAME}-{VERSION}.dist-info"
# The earliest time that an archive can record, so that the same sources give the same bytes.
TIME = (1980, 1, 1, 0, 0, 0)


def metadata():
    classifiers = "".join(f"Classifier: {it}\n" for it in re.findall(r'^    "(.*)",$', PROJECT, re.MULTILINE))
    return (
        f"Metadata-Version: 2.1\nName: {NAME}\nVersion: {VERSION}\nSummary: {field('description')}\n"
        f"Requires-Python: {field('requires-python')}\n{classifiers}Description-Content-Type: text/markdown\n\n"
        + (HERE / "README.md").read_text()
    )


def modules():
    return sorted(it for it in (HERE / NAME).iterdir() if it.suffix in (".py", ".typed"))


def contents():
    """Returns the files of the wheel by their names in it. The last one is the record of the others."""
    made = {f"{NAME}/{it.name}": it.read_bytes() for it in modules()}
    made[f"{INFO}/METADATA"] = metadata().encode()
    made[f"{INFO}/WHEEL"] = b"Wheel-Version: 1.0\nGenerator: machipc\nRoot-Is-Purelib: true\nTag: py3-none-any\n"
    rows = [f"{name},{digest(content)},{len(content)}\n" for name, content in made.items()]
    made[f"{INFO}/RECORD"] = "".join([*rows, f"{INFO}/RECORD,,\n"]).encode()
    return made


def digest(content):
    return "sha256=" + base64.urlsafe_b64encode(hashlib.sha256(content).digest()).rstrip(b"=").decode()


def build_wheel(folder, config_settings=None, metadata_directory=None):
    with zipfile.ZipFile(pathlib.Path(folder, WHEEL), "w", zipfile.ZIP_DEFLATED) as wheel:
        for name, content in contents().items():
            entry = zipfile.ZipInfo(name, TIME)
            entry.external_attr = 0o644 << 16
            wheel.writestr(entry, content, zipfile.ZIP_DEFLATED)
    return WHEEL


def build_sdist(folder, config_settings=None):
    name = f"{NAME}-{VERSION}"
    with tarfile.open(pathlib.Path(folder, f"{name}.tar.gz"), "w:gz") as made:
        for it in (HERE / "pyproject.toml", HERE / "backend.py", HERE / "README.md", *modules()):
            made.add(it, f"{name}/{it.relative_to(HERE)}")
        info = tarfile.TarInfo(f"{name}/PKG-INFO")
        info.size, info.mtime = len(metadata().encode()), int(time.time())
        made.addfile(info, io.BytesIO(metadata().encode()))
    return f"{name}.tar.gz"


if __name__ == "__main__":
    print(build_wheel(sys.argv[1]))
