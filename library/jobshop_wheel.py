"""Makes a wheel of the module and the shared library, for pip: by `pip install ./library` in a checkout where
library/build was run, or by `pip install PREFIX/lib/jobshop` of an install. Needs Python alone, and no network."""

import base64
import ctypes
import hashlib
import zipfile
from pathlib import Path

HERE = Path(__file__).resolve().parent
MODULES = [HERE / "jobshop.py", HERE / "jobshop" / "__init__.py"]
MAINS = [HERE / "jobshop_main.py", HERE / "jobshop" / "__main__.py"]
LIBRARIES = [HERE / "out" / "libjobshop.so.1", HERE.parent / "libjobshop.so.1"]
TAG = "py3-none-linux_x86_64"
# of each file in a wheel, so that the same files make the same bytes
TIME = (1980, 1, 1, 0, 0, 0)
MODE = 0o644


def first_of(files):
    for file in files:
        if file.exists():
            return file
    raise SystemExit(f"{files[0]} isn't there: run library/build first")


def sum_of(data):
    return base64.urlsafe_b64encode(hashlib.sha256(data).digest()).rstrip(b"=").decode()


def version_of(library):
    """The version that a library says it has, in the form that Python's packages have (PEP 440)."""
    find_version = ctypes.CDLL(str(library)).jobshop_version
    find_version.restype = ctypes.c_char_p
    return find_version().decode().replace("-dev", ".dev0")


def build_wheel(wheel_directory, config_settings=None, metadata_directory=None):
    """Writes the wheel into the folder, and returns its name (PEP 517)."""
    library = first_of(LIBRARIES)
    version = version_of(library)
    about = "An exact solver of the job shop whose answers are proved"
    folder, name = f"jobshop-{version}.dist-info", f"jobshop-{version}-{TAG}.whl"
    files = {
        "jobshop/__init__.py": first_of(MODULES).read_bytes(),
        "jobshop/__main__.py": first_of(MAINS).read_bytes(),
        "jobshop/py.typed": b"",
        "jobshop/libjobshop.so.1": library.read_bytes(),
        f"{folder}/METADATA": f"Metadata-Version: 2.1\nName: jobshop\nVersion: {version}\nSummary: {about}\n".encode(),
        f"{folder}/WHEEL": f"Wheel-Version: 1.0\nGenerator: jobshop\nRoot-Is-Purelib: false\nTag: {TAG}\n".encode(),
    }
    rows = [f"{file},sha256={sum_of(data)},{len(data)}\n" for file, data in files.items()]
    files[f"{folder}/RECORD"] = "".join([*rows, f"{folder}/RECORD,,\n"]).encode()
    with zipfile.ZipFile(Path(wheel_directory, name), "w") as wheel:
        for file, data in files.items():
            entry = zipfile.ZipInfo(file, TIME)
            entry.external_attr = MODE << 16
            wheel.writestr(entry, data)
    return name
