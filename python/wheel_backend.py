"""Packs the package wakhurmi, and libwakhurmi.so into it, as a wheel: the build backend of pyproject.toml (PEP 517), over the standard library alone.

The library lies in the package's folder, or where the variable WAKHURMI names a folder that c/build.sh has filled, in its folder `shared`. Where there is
none, but the system's loader finds one, the wheel has the package's own files alone.
"""

import base64
import ctypes
import hashlib
import os
import pathlib
import re
import sysconfig
import zipfile
from typing import Any, Dict, Optional

PACKAGE, LIBRARY = pathlib.Path(__file__).resolve().parent / "wakhurmi", "libwakhurmi.so"


def find_library() -> Optional[pathlib.Path]:
    places = [PACKAGE / LIBRARY]
    if os.environ.get("WAKHURMI"):
        places.append(pathlib.Path(os.environ["WAKHURMI"], "shared", LIBRARY))
    for place in places:
        if place.is_file():
            return place
    try:
        ctypes.CDLL(LIBRARY)
    except OSError:
        looked = " and ".join(map(str, places))
        raise SystemExit(f"{LIBRARY} isn't at {looked}: c/build.sh FOLDER makes it, and WAKHURMI names the folder, from / on") from None
    return None


def record(name: str, content: bytes) -> str:
    digest = base64.urlsafe_b64encode(hashlib.sha256(content).digest()).rstrip(b"=").decode()
    return f"{name},sha256={digest},{len(content)}\n"


def build_wheel(wheel_directory: str, config_settings: Any = None, metadata_directory: Any = None) -> str:
    """Writes the wheel, and answers its name."""
    library = find_library()
    files: Dict[str, bytes] = {f"{PACKAGE.name}/{file.name}": file.read_bytes() for file in sorted(PACKAGE.glob("*.py"))}
    version = re.search(r'^__version__ = "(.*)"$', files[f"{PACKAGE.name}/__init__.py"].decode(), re.M)
    assert version is not None
    platform = "any"
    if library is not None:
        files[f"{PACKAGE.name}/{LIBRARY}"] = library.read_bytes()
        platform = re.sub(r"[-.]", "_", sysconfig.get_platform())
    name, tag = f"wakhurmi-{version[1]}", f"py3-none-{platform}"
    about = f"Name: wakhurmi\nVersion: {version[1]}\nSummary: Worker leases and project locks for the threads of a build tool\nRequires-Python: >=3.9\n"
    files[f"{name}.dist-info/METADATA"] = f"Metadata-Version: 2.1\n{about}".encode()
    purely = "true" if library is None else "false"
    files[f"{name}.dist-info/WHEEL"] = f"Wheel-Version: 1.0\nGenerator: wheel_backend\nRoot-Is-Purelib: {purely}\nTag: {tag}\n".encode()
    records = "".join(record(*file) for file in files.items()) + f"{name}.dist-info/RECORD,,\n"
    files[f"{name}.dist-info/RECORD"] = records.encode()
    wheel = f"{name}-{tag}.whl"
    with zipfile.ZipFile(pathlib.Path(wheel_directory, wheel), "w", zipfile.ZIP_DEFLATED) as archive:
        for file, content in files.items():
            archive.writestr(file, content)
    return wheel
