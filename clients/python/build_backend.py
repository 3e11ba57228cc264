"""Builds the package with the standard library alone, for `pip install`: wheels, editable ones, and sdists (PEP 517,
PEP 660). What pyproject.toml and the package's `__version__` say is written here as pip wants it."""

import base64
import hashlib
import io
import re
import tarfile
import zipfile
from pathlib import Path

HERE = Path(__file__).resolve().parent
VERSION = re.search(r'^__version__ = "([0-9.]+)"$', (HERE / "pide" / "__init__.py").read_text(), re.M)[1]
NAME = f"pide-{VERSION}"
INFO = f"{NAME}.dist-info"
WHEEL = f"{NAME}-py3-none-any.whl"
SDIST = f"{NAME}.tar.gz"
METADATA = f"""Metadata-Version: 2.1
Name: pide
Version: {VERSION}
Summary: A client of the engine for interactive proof documents: sessions, checks of files
Requires-Python: >=3.9
"""
KIND = """Wheel-Version: 1.0
Generator: build_backend
Root-Is-Purelib: true
Tag: py3-none-any
"""
SCRIPTS = """[console_scripts]
pide-client = pide.__main__:main
"""
BESIDE = ("pyproject.toml", "build_backend.py")


def build_wheel(wheel_directory, config_settings=None, metadata_directory=None):
    return _write(wheel_directory, {name: (HERE / name).read_bytes() for name in package_files()})


def build_editable(wheel_directory, config_settings=None, metadata_directory=None):
    return _write(wheel_directory, {"pide.pth": f"{HERE}\n".encode()})


def build_sdist(sdist_directory, config_settings=None):
    files = {name: (HERE / name).read_bytes() for name in [*package_files(), *BESIDE]}
    files["PKG-INFO"] = METADATA.encode()
    with tarfile.open(Path(sdist_directory, SDIST), "w:gz", format=tarfile.PAX_FORMAT) as archive:
        for name, content in sorted(files.items()):
            entry = tarfile.TarInfo(f"{NAME}/{name}")
            entry.size, entry.mode = len(content), 0o644
            archive.addfile(entry, io.BytesIO(content))
    return SDIST


def package_files():
    """The names of the package's files, modules and what stands beside them."""
    paths = (path for path in (HERE / "pide").rglob("*") if path.is_file() and "__pycache__" not in path.parts)
    return sorted(path.relative_to(HERE).as_posix() for path in paths)


def _write(folder, files):
    """Writes a wheel of these files, by their names, and gives its own name."""
    told = {"METADATA": METADATA, "WHEEL": KIND, "entry_points.txt": SCRIPTS}
    files = {**files, **{f"{INFO}/{name}": text.encode() for name, text in told.items()}}
    record = "".join(f"{name},sha256={_digest(content)},{len(content)}\n" for name, content in sorted(files.items()))
    files[f"{INFO}/RECORD"] = f"{record}{INFO}/RECORD,,\n".encode()
    with zipfile.ZipFile(Path(folder, WHEEL), "w", zipfile.ZIP_DEFLATED) as wheel:
        for name, content in sorted(files.items()):
            wheel.writestr(name, content)
    return WHEEL


def _digest(content):
    return base64.urlsafe_b64encode(hashlib.sha256(content).digest()).rstrip(b"=").decode()
