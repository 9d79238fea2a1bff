"""Makes the wheel, for pip and other front ends (PEP 517), of Python alone.

    bin/library FOLDER && AGG_LIBRARY=FOLDER/libagg.so.1 pip wheel ./python
    pip wheel ./python                       has bin/library build the library first, which can take an hour

The wheel holds the package and the shared library. Who installs it needs no compiler, and any Python from 3.9 on will do. Its tag tells the
machine, and the C library whose functions are the newest that the shared one calls. The same files make the same bytes.
"""

from __future__ import annotations

import base64
import ctypes
import hashlib
import os
import platform
import re
import subprocess
import sys
import tempfile
import zipfile
from pathlib import Path

TOP = Path(__file__).resolve().parent
# The oldest C library for which pip knows a tag, by machine.
OLDEST = {"x86_64": 5}


def project():
    """The name, the version and the other lines of METADATA that pyproject.toml tells."""
    text = (TOP / "pyproject.toml").read_text()

    def told(key):
        return re.search(rf'^{key} = "(.*)"$', text, re.M).group(1)

    extras = re.search(r"^\[project.optional-dependencies\]\n((?:.+\n)+)", text, re.M).group(1)
    lines = ["Metadata-Version: 2.1", f"Name: {told('name')}", f"Version: {told('version')}", f"Summary: {told('description')}"]
    lines.append(f"Requires-Python: {told('requires-python')}")
    for extra, wanted in re.findall(r'^(\w+) = \["(.*)"\]$', extras, re.M):
        lines += [f"Provides-Extra: {extra}", f'Requires-Dist: {wanted}; extra == "{extra}"']
    lines += ["Description-Content-Type: text/markdown", "", (TOP / "README.md").read_text()]
    return told("name").replace("-", "_"), told("version"), "\n".join(lines)


def library_bytes(work):
    """The bytes of the shared library: the one that AGG_LIBRARY names, or that bin/library builds."""
    named = os.environ.get("AGG_LIBRARY")
    if not named:
        subprocess.run([TOP.parent / "bin" / "library", work], check=True, stdout=sys.stderr)
        named = os.path.join(work, "libagg.so.1")
    return Path(named).read_bytes(), named


def version_of(path):
    """The version that a library tells of itself."""
    out, wanted = ctypes.create_string_buffer(64), ctypes.c_size_t()
    status = ctypes.CDLL(os.path.abspath(path)).agg_version(out, ctypes.c_size_t(len(out)), ctypes.byref(wanted))
    return out.raw[: wanted.value].decode() if status == 0 else ""


def platform_tag(library):
    """Where a library of these bytes runs: the machine, and the oldest C library that has each function which it calls."""
    machine = platform.machine()
    if not sys.platform.startswith("linux") or machine not in OLDEST:
        return f"{sys.platform}_{machine}"
    wanted = [int(minor) for minor in re.findall(rb"GLIBC_2\.(\d+)", library)]
    return f"manylinux_2_{max([OLDEST[machine], *wanted])}_{machine}"


def digest(data):
    return "sha256=" + base64.urlsafe_b64encode(hashlib.sha256(data).digest()).rstrip(b"=").decode()


def write(path, files):
    """A wheel of files, with the list of them as its last one."""
    folder = next(name.split("/")[0] for name in files if name.endswith(".dist-info/WHEEL"))
    record = "".join(f"{name},{digest(data)},{len(data)}\n" for name, data in files.items())
    files = {**files, f"{folder}/RECORD": f"{record}{folder}/RECORD,,\n".encode()}
    with zipfile.ZipFile(path, "w", zipfile.ZIP_DEFLATED) as wheel:
        for name, data in files.items():
            entry = zipfile.ZipInfo(name, (1980, 1, 1, 0, 0, 0))
            entry.external_attr = (0o755 if name.endswith(".so.1") else 0o644) << 16
            entry.compress_type = zipfile.ZIP_DEFLATED
            wheel.writestr(entry, data)


# What a front end calls.


def build_wheel(wheel_directory, config_settings=None, metadata_directory=None):
    with tempfile.TemporaryDirectory() as work:
        library, path = library_bytes(work)
        name, version, metadata = project()
        found = version_of(path)
    if found != version:
        raise RuntimeError(f"the library {path} is of version {found}, and the package of {version}")
    tag = f"py3-none-{platform_tag(library)}"
    files = {f"agg/{source.name}": source.read_bytes() for source in sorted((TOP / "agg").iterdir()) if source.suffix in (".py", ".typed")}
    files["agg/libagg.so.1"] = library
    information = f"{name}-{version}.dist-info"
    files[f"{information}/METADATA"] = metadata.encode()
    files[f"{information}/WHEEL"] = f"Wheel-Version: 1.0\nGenerator: agg_tool\nRoot-Is-Purelib: false\nTag: {tag}\n".encode()
    wheel = f"{name}-{version}-{tag}.whl"
    write(os.path.join(wheel_directory, wheel), files)
    return wheel


def build_sdist(sdist_directory, config_settings=None):
    raise RuntimeError("there is no source distribution: the library is built of the repository's sources, by bin/library")
