"""The build backend of pyproject.toml (PEP 517), which needs nothing but Python: `pip install ./python` makes a wheel without a network.

The wheel has the shared library in it that DBUS_WIRE_LIBRARY names, or that `make library` made. If there is neither, the module loads the
library that is installed. If none is installed here, there is no wheel, unless DBUS_WIRE_LIBRARY is empty: then it is for any machine.

It has the extension module too if there is a compiler of C, which CC names, and Python's headers are there, unless
DBUS_WIRE_NO_EXTENSION is not empty. The same files and tools give the same bytes.

    wheel_of_module.py FOLDER        makes a wheel in the folder
    wheel_of_module.py --extension   compiles the extension module beside the modules in Python
"""

import base64
import ctypes
import hashlib
import io
import os
import pathlib
import re
import shlex
import subprocess
import sys
import sysconfig
import tarfile
import tempfile
import time
import zipfile

HERE = pathlib.Path(__file__).resolve().parent
MODULE = "dbus_wire"
SONAME = "libdbus_wire.so.0"
MADE = HERE.parent / "out"
# The extension module, for each Python from 3.9 on, by its source and the header of the library.
EXTENSION, PYTHONS = f"{MODULE}/_objects.abi3.so", "cp39-abi3"
SOURCE, HEADER = f"{MODULE}/_objects.c", "dbus_wire.h"
COMPILED = "-std=c99 -O2 -fPIC -shared -s -Wall -Wextra -Wconversion"
# The library needs a C library of 2.14. No tag says that it is for x86-64-v2: the module looks when it is loaded.
PLATFORM = "manylinux_2_14_x86_64"
# The first date that a zip file can have.
EARLIEST = 315532800


def version():
    """The version, which the module has once: it loads no library of an earlier one."""
    numbers = re.search(r"^WRITTEN_FOR = \((\d+), (\d+), (\d+)\)", (HERE / MODULE / "_library.py").read_text(), re.M)
    return ".".join(numbers.groups())


def project():
    """The lines of pyproject.toml that the metadata has: texts, and lists of texts."""
    text = (HERE / "pyproject.toml").read_text().partition("[project]\n")[2]
    return {key: re.findall(r'"([^"]*)"', value) for key, value in re.findall(r"^([\w-]+) = (\[[^]]*\]|.*)", text, re.M)}


def metadata():
    found = project()
    lines = ["Metadata-Version: 2.1", f"Name: {found['name'][0]}", f"Version: {version()}", f"Summary: {found['description'][0]}"]
    lines += [f"Author: {found['authors'][0]}", f"License: {found['license'][0]}", f"Requires-Python: {found['requires-python'][0]}"]
    lines += [f"Classifier: {it}" for it in found["classifiers"]]
    lines += ["Description-Content-Type: text/markdown", "", (HERE / found["readme"][0]).read_text()]
    return "\n".join(lines)


def library():
    """The shared library for the wheel; None if it is to have none. It ends if the module would find none here."""
    if (named := os.environ.get("DBUS_WIRE_LIBRARY")) is not None:
        return pathlib.Path(named) if named else None
    if (MADE / SONAME).exists():
        return MADE / SONAME
    try:
        ctypes.CDLL(SONAME)
    except OSError as error:
        wanted = f"install libdbus_wire, or let DBUS_WIRE_LIBRARY name {SONAME}"
        raise SystemExit(f"dbus-wire: no library for the module: {wanted} ({error})") from error
    return None


def header():
    """The header of the library, in the repository or in what build_sdist made."""
    return next(it for it in (HERE / HEADER, HERE.parent / "include" / HEADER) if it.exists())


def extension(to):
    """Whether the extension module is compiled to this file. If not, it says why."""
    compiler, places = shlex.split(os.environ.get("CC") or "cc"), (sysconfig.get_paths()["include"], header().parent)
    words = [*compiler, *COMPILED.split(), *(f"-I{it}" for it in places), "-o", str(to), SOURCE]
    try:
        subprocess.run(words, cwd=HERE, check=True)
    except (OSError, subprocess.CalledProcessError) as error:
        print(f"dbus-wire: no extension module, so the module is slower: {error}", file=sys.stderr)
        return False
    return True


def compiled():
    """The bytes of the extension module, or None if there is to be none, or cannot be."""
    if os.environ.get("DBUS_WIRE_NO_EXTENSION") or sys.implementation.name != "cpython":
        return None
    with tempfile.TemporaryDirectory() as room:
        file = pathlib.Path(room, "objects.so")
        return file.read_bytes() if extension(file) else None


def licences():
    """The file of the repository, and what `make library` wrote of the crates that are linked in."""
    places = {"LICENSE": [HERE / "LICENSE", HERE.parent / "LICENSE"], "NOTICES": [MADE / "NOTICES"]}
    return {name: next((it for it in files if it.exists()), None) for name, files in places.items()}


def moment():
    return time.gmtime(max(EARLIEST, int(os.environ.get("SOURCE_DATE_EPOCH", EARLIEST))))[:6]


def module_files(*suffixes):
    files = (it for it in sorted((HERE / MODULE).iterdir()) if it.suffix in (".py", ".typed", *suffixes))
    return {it.relative_to(HERE).as_posix(): it.read_bytes() for it in files}


def digest(data):
    return "sha256=" + base64.urlsafe_b64encode(hashlib.sha256(data).digest()).rstrip(b"=").decode()


def build_wheel(wheel_directory, config_settings=None, metadata_directory=None):
    shared = library()
    # A wheel for any machine has none.
    fast = None if os.environ.get("DBUS_WIRE_LIBRARY") == "" else compiled()
    here = re.sub(r"\W", "_", sysconfig.get_platform())
    tag = f"{PYTHONS if fast else 'py3-none'}-{PLATFORM if shared else here if fast else 'any'}"
    info = f"{MODULE}-{version()}.dist-info"
    files = module_files()
    if shared:
        files[f"{MODULE}/{SONAME}"] = shared.read_bytes()
    if fast:
        files[EXTENSION] = fast
    files |= {f"{info}/licenses/{name}": it.read_bytes() for name, it in licences().items() if it}
    files[f"{info}/METADATA"] = metadata().encode()
    pure = "false" if shared or fast else "true"
    head = f"Wheel-Version: 1.0\nGenerator: {MODULE}\nRoot-Is-Purelib: {pure}\nTag: {tag}\n"
    files[f"{info}/WHEEL"] = head.encode()
    record = "".join(f"{name},{digest(data)},{len(data)}\n" for name, data in files.items())
    files[f"{info}/RECORD"] = f"{record}{info}/RECORD,,\n".encode()
    name = f"{MODULE}-{version()}-{tag}.whl"
    with zipfile.ZipFile(pathlib.Path(wheel_directory) / name, "w", zipfile.ZIP_DEFLATED) as wheel:
        for path, data in files.items():
            entry = zipfile.ZipInfo(path, moment())
            entry.compress_type = zipfile.ZIP_DEFLATED
            entry.external_attr = (0o100755 if path in (f"{MODULE}/{SONAME}", EXTENSION) else 0o100644) << 16
            wheel.writestr(entry, data)
    return name


def build_sdist(sdist_directory, config_settings=None):
    """The sources without the library and the tests, which need the repository."""
    top = f"{MODULE}-{version()}"
    own = {it: (HERE / it).read_bytes() for it in ("pyproject.toml", "README.md", f"{pathlib.Path(__file__).stem}.py")}
    others = {HEADER: header().read_bytes(), "PKG-INFO": metadata().encode(), "LICENSE": licences()["LICENSE"].read_bytes()}
    files = module_files(".c") | own | others
    with tarfile.open(pathlib.Path(sdist_directory) / f"{top}.tar.gz", "w:gz", format=tarfile.PAX_FORMAT) as packed:
        for path, data in files.items():
            entry = tarfile.TarInfo(f"{top}/{path}")
            entry.size = len(data)
            packed.addfile(entry, io.BytesIO(data))
    return f"{top}.tar.gz"


if __name__ == "__main__":
    if sys.argv[1:] == ["--extension"]:
        sys.exit(not extension(HERE / EXTENSION))
    print(build_wheel(sys.argv[1]))
