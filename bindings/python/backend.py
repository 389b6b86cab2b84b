"""Builds the package's wheel by the standard library alone, so that pip needs no network and no other package (PEP 517)."""
import base64
import hashlib
import pathlib
import zipfile

here = pathlib.Path(__file__).resolve().parent
NAME, VERSION = "jilgomt", "0.1.0"
METADATA = f"""Metadata-Version: 2.1
Name: {NAME}
Version: {VERSION}
Summary: ASN.1's octet encoding rules (OER and COER, ITU-T X.696) by a proved C library
Requires-Python: >=3.9
"""
WHEEL = "Wheel-Version: 1.0\nGenerator: jilgomt\nRoot-Is-Purelib: true\nTag: py3-none-any\n"


def build_wheel(wheel_directory, config_settings=None, metadata_directory=None):
    """Writes the wheel into the folder, and answers its name."""
    files = {str(it.relative_to(here)): it.read_bytes() for it in sorted((here / NAME).iterdir()) if it.suffix in (".py", ".typed")}
    inside = f"{NAME}-{VERSION}.dist-info"
    files |= {f"{inside}/METADATA": METADATA.encode(), f"{inside}/WHEEL": WHEEL.encode()}
    rows = [f"{name},sha256={digest(octets)},{len(octets)}" for name, octets in files.items()]
    files[f"{inside}/RECORD"] = "".join(f"{row}\n" for row in [*rows, f"{inside}/RECORD,,"]).encode()
    wheel = f"{NAME}-{VERSION}-py3-none-any.whl"
    with zipfile.ZipFile(pathlib.Path(wheel_directory) / wheel, "w", zipfile.ZIP_DEFLATED) as archive:
        for name, octets in files.items():
            archive.writestr(name, octets)
    return wheel


def digest(octets):
    return base64.urlsafe_b64encode(hashlib.sha256(octets).digest()).rstrip(b"=").decode()
