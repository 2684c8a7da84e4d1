"""Builds the wheel of the source package, or of a clone of the repository: pip calls it (PEP 517), and it calls cargo. The wheels of a
release are packed by it too."""
import base64
import hashlib
import io
import re
import shutil
import subprocess
import sys
import sysconfig
import tempfile
import zipfile
from pathlib import Path

HERE = Path(__file__).resolve().parent
ERASE = HERE / "../../release/erased/erase.py"
# What cargo calls the shared library: on Linux, macOS, Windows.
LIBRARIES = ("libhayro_ccitt.so", "libhayro_ccitt.dylib", "hayro_ccitt.dll")


def metadata(version):
    """What pip knows of the package."""
    summary = "A decoder and encoder for CCITT fax images, with proofs"
    return f"Metadata-Version: 2.1\nName: hayro_ccitt\nVersion: {version}\nSummary: {summary}\nRequires-Python: >=3.9\n"


def packed_wheel(version, platform, files):
    """The name of a wheel for a platform, and its bytes; its files are given by their names and bytes."""
    about, tag = f"hayro_ccitt-{version}.dist-info", f"py3-none-{platform}"
    files = {
        **files,
        f"{about}/METADATA": metadata(version).encode(),
        f"{about}/WHEEL": f"Wheel-Version: 1.0\nGenerator: hayro_ccitt\nRoot-Is-Purelib: false\nTag: {tag}\n".encode(),
    }
    digests = {name: base64.urlsafe_b64encode(hashlib.sha256(data).digest()).rstrip(b"=").decode() for name, data in files.items()}
    record = "".join(f"{name},sha256={digests[name]},{len(data)}\n" for name, data in files.items()) + f"{about}/RECORD,,\n"
    packed = io.BytesIO()
    with zipfile.ZipFile(packed, "w", zipfile.ZIP_DEFLATED) as zipped:
        for name, data in {**files, f"{about}/RECORD": record.encode()}.items():
            item = zipfile.ZipInfo(name, (1980, 1, 1, 0, 0, 0))
            item.compress_type, item.external_attr = zipfile.ZIP_DEFLATED, 0o644 << 16
            zipped.writestr(item, data)
    return f"hayro_ccitt-{version}-{tag}.whl", packed.getvalue()


def rust_sources(work):
    """The proved sources without their contracts: those of the source package, or in a clone those that are written to a folder."""
    if (HERE / "rust").is_dir():
        return HERE / "rust"
    need("rustfmt")
    subprocess.run([sys.executable, str(ERASE), work], check=True)
    return work


def need(tool):
    if not shutil.which(tool):
        raise SystemExit(f"hayro_ccitt is built by {tool}, which isn't installed: https://rustup.rs, or your system's package")


def built_library(sources, target):
    """The path of the shared library that cargo builds in a folder."""
    words = ["cargo", "build", "--release", "--offline", "--manifest-path", f"{sources}/c/Cargo.toml", "--target-dir", target]
    subprocess.run(words, check=True)
    return next(path for name in LIBRARIES if (path := Path(target, "release", name)).is_file())


def build_wheel(wheel_directory, config_settings=None, metadata_directory=None):
    """Makes the wheel for this machine, with the library that cargo builds of the proved sources, and returns its name."""
    need("cargo")
    version = re.search('^__version__ = "(.*)"$', (HERE / "hayro_ccitt/__init__.py").read_text(), re.MULTILINE)[1]
    files = {f"hayro_ccitt/{path.name}": path.read_bytes() for path in sorted((HERE / "hayro_ccitt").iterdir()) if path.is_file()}
    with tempfile.TemporaryDirectory() as work:
        library = built_library(rust_sources(f"{work}/rust"), f"{work}/target")
        files[f"hayro_ccitt/{library.name}"] = library.read_bytes()
    platform = sysconfig.get_platform().replace("-", "_").replace(".", "_")
    name, packed = packed_wheel(version, platform, files)
    Path(wheel_directory, name).write_bytes(packed)
    return name
