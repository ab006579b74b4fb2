"""Builds the wheel: the package, and the shared library that bindings/build makes. It needs no other package."""
import base64
import hashlib
import zipfile
from pathlib import Path

HERE = Path(__file__).resolve().parent
NAME, VERSION = "caliperdock", "0.2.0"
TAG = "py3-none-linux_x86_64"
LIBRARY = "libcaliperdock.so.1"

METADATA = f"""Metadata-Version: 2.1
Name: {NAME}
Version: {VERSION}
Summary: Trees, statements and raw tokens of SQL text
License: MIT OR Apache-2.0
Requires-Python: >=3.8
"""

WHEEL = f"""Wheel-Version: 1.0
Generator: caliperdock
Root-Is-Purelib: false
Tag: {TAG}
"""


def _files():
    for path in sorted((HERE / NAME).iterdir()):
        if path.suffix in (".py", ".typed"):
            yield f"{NAME}/{path.name}", path.read_bytes()
    library = HERE.parent / "out" / LIBRARY
    if not library.exists():
        raise SystemExit(f"{library} isn't there: run bindings/build first")
    yield f"{NAME}/{LIBRARY}", library.read_bytes()


def build_wheel(wheel_directory, config_settings=None, metadata_directory=None):
    info = f"{NAME}-{VERSION}.dist-info"
    wheel = f"{NAME}-{VERSION}-{TAG}.whl"
    records = []
    with zipfile.ZipFile(Path(wheel_directory) / wheel, "w", zipfile.ZIP_DEFLATED) as archive:
        files = [*_files(), (f"{info}/METADATA", METADATA.encode()), (f"{info}/WHEEL", WHEEL.encode())]
        for name, data in files:
            digest = base64.urlsafe_b64encode(hashlib.sha256(data).digest()).rstrip(b"=").decode()
            records.append(f"{name},sha256={digest},{len(data)}\n")
            archive.writestr(name, data)
        records.append(f"{info}/RECORD,,\n")
        archive.writestr(f"{info}/RECORD", "".join(records))
    return wheel


def build_sdist(sdist_directory, config_settings=None):
    raise NotImplementedError("the wheel is built out of the repository")
