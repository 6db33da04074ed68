"""Builds the wheel of domreth, with the library inside. It needs Python alone: no setuptools, no network.

The library is libdomreth.so of the folder that DOMRETH_LIB names, or that which the checkout built, or that which
`pkg-config domreth` finds. pip calls `build_wheel` and `build_sdist`, as PEP 517 has it.
"""

import base64
import hashlib
import io
import os
import shutil
import subprocess
import sysconfig
import tarfile
import zipfile

VERSION = "0.4.0.dev0"
HERE = os.path.dirname(os.path.abspath(__file__))
STEM = f"domreth-{VERSION}"
FILE = "libdomreth.so"
METADATA = f"""Metadata-Version: 2.1
Name: domreth
Version: {VERSION}
Summary: Requests signed for AWS, links made and checked, by the library Domreth
License: Apache-2.0
Requires-Python: >=3.9
Classifier: Typing :: Typed
"""


def build_wheel(wheel_directory, config_settings=None, metadata_directory=None):
    """Writes the wheel, and returns its name."""
    tag = "py3-none-" + sysconfig.get_platform().replace("-", "_").replace(".", "_")
    files = {f"domreth/{name}": read(os.path.join(HERE, "domreth", name)) for name in sources()}
    files[f"domreth/{FILE}"] = read(find_library())
    files[f"{STEM}.dist-info/METADATA"] = METADATA.encode()
    files[f"{STEM}.dist-info/WHEEL"] = wheel_text(tag).encode()
    files[f"{STEM}.dist-info/RECORD"] = record_text(files).encode()
    name = f"{STEM}-{tag}.whl"
    with zipfile.ZipFile(os.path.join(wheel_directory, name), "w", zipfile.ZIP_DEFLATED) as wheel:
        for path, data in files.items():
            wheel.writestr(zipfile.ZipInfo(path, (1980, 1, 1, 0, 0, 0)), data, zipfile.ZIP_DEFLATED)
    return name


def build_sdist(sdist_directory, config_settings=None):
    """Writes the sources, without the library, and returns their name."""
    name = f"{STEM}.tar.gz"
    with tarfile.open(os.path.join(sdist_directory, name), "w:gz") as sdist:
        for path in ("pyproject.toml", "build_wheel.py", *(f"domreth/{source}" for source in sources())):
            sdist.add(os.path.join(HERE, path), f"{STEM}/{path}")
        info = tarfile.TarInfo(f"{STEM}/PKG-INFO")
        info.size = len(METADATA)
        sdist.addfile(info, io.BytesIO(METADATA.encode()))
    return name


def sources():
    return sorted(name for name in os.listdir(os.path.join(HERE, "domreth")) if name.endswith((".py", ".typed")))


def find_library():
    """The library's file. Raises where there is none."""
    named = os.environ.get("DOMRETH_LIB")
    folders = [named] if named else [os.path.join(HERE, "..", "lib"), folder_of_pkg_config()]
    for folder in folders:
        if folder and os.path.exists(os.path.join(folder, FILE)):
            return os.path.join(folder, FILE)
    where = f"in {named}, which DOMRETH_LIB names" if named else "in bindings/lib, and pkg-config knows no domreth"
    raise SystemExit(
        f"domreth: there is no {FILE} {where}. Run scripts/build-domreth in the checkout, which proves the library, or "
        "scripts/build-domreth --unproved, which only compiles it; or let DOMRETH_LIB name the folder that has it."
    )


def folder_of_pkg_config():
    if shutil.which("pkg-config") is None:
        return None
    asked = subprocess.run(["pkg-config", "--variable=libdir", "domreth"], capture_output=True, text=True, check=False)
    return asked.stdout.strip() or None


def read(path):
    with open(path, "rb") as file:
        return file.read()


def wheel_text(tag):
    return f"Wheel-Version: 1.0\nGenerator: domreth build_wheel\nRoot-Is-Purelib: false\nTag: {tag}\n"


def record_text(files):
    lines = [f"{path},sha256={digest(data)},{len(data)}" for path, data in files.items()]
    return "\n".join([*lines, f"{STEM}.dist-info/RECORD,,", ""])


def digest(data):
    return base64.urlsafe_b64encode(hashlib.sha256(data).digest()).decode().rstrip("=")
