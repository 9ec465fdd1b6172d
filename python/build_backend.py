"""Builds the package `patience-games` with nothing but Python's own library, so that no network is needed.

pip calls `build_wheel`, `build_editable` or `build_sdist` (PEP 517 and PEP 660). A wheel is a zip file of the package
beside a folder of three texts: METADATA, WHEEL and RECORD.
"""
from __future__ import annotations

import base64
import hashlib
import io
import tarfile
import tomllib
import zipfile
from pathlib import Path

HERE = Path(__file__).resolve().parent
PACKAGE = "patience_games"


def project() -> dict[str, str]:
    """The table `project` of pyproject.toml."""
    with open(HERE / "pyproject.toml", "rb") as file:
        table: dict[str, str] = tomllib.load(file)["project"]
    return table


def metadata() -> str:
    """The text of METADATA."""
    told = project()
    return (
        "Metadata-Version: 2.1\n"
        f"Name: {told['name']}\n"
        f"Version: {told['version']}\n"
        f"Summary: {told['description']}\n"
        f"Requires-Python: {told['requires-python']}\n"
    )


def stem() -> str:
    """How the files of this version begin, as `patience_games-1.0.0`."""
    return f"{PACKAGE}-{project()['version']}"


def write_wheel(folder: str, files: dict[str, bytes]) -> str:
    """Writes a wheel of the files, and gives its name."""
    info = f"{stem()}.dist-info"
    wheel = "Wheel-Version: 1.0\nGenerator: build_backend\nRoot-Is-Purelib: true\nTag: py3-none-any\n"
    files = {**files, f"{info}/METADATA": metadata().encode(), f"{info}/WHEEL": wheel.encode()}
    record = ""
    for name, body in files.items():
        digest = base64.urlsafe_b64encode(hashlib.sha256(body).digest()).rstrip(b"=").decode()
        record += f"{name},sha256={digest},{len(body)}\n"
    files[f"{info}/RECORD"] = (record + f"{info}/RECORD,,\n").encode()
    name = f"{stem()}-py3-none-any.whl"
    with zipfile.ZipFile(Path(folder) / name, "w", zipfile.ZIP_DEFLATED) as archive:
        for path, body in files.items():
            archive.writestr(path, body)
    return name


def package_files() -> dict[str, bytes]:
    """The files of the package, by their names in it."""
    paths = sorted(path for path in (HERE / PACKAGE).iterdir() if path.suffix == ".py" or path.name == "py.typed")
    return {f"{PACKAGE}/{path.name}": path.read_bytes() for path in paths}


def build_wheel(wheel_directory: str, config_settings: object = None, metadata_directory: object = None) -> str:
    """A wheel with the package in it."""
    return write_wheel(wheel_directory, package_files())


def build_editable(wheel_directory: str, config_settings: object = None, metadata_directory: object = None) -> str:
    """A wheel that points at this folder."""
    return write_wheel(wheel_directory, {f"__editable__{PACKAGE}.pth": f"{HERE}\n".encode()})


def build_sdist(sdist_directory: str, config_settings: object = None) -> str:
    """A source archive: this file, pyproject.toml and the package."""
    name = f"{stem()}.tar.gz"
    own = {path: (HERE / path).read_bytes() for path in ("pyproject.toml", "build_backend.py")}
    files = {**own, **package_files(), "PKG-INFO": metadata().encode()}
    with tarfile.open(Path(sdist_directory) / name, "w:gz") as archive:
        for path, body in files.items():
            entry = tarfile.TarInfo(f"{stem()}/{path}")
            entry.size = len(body)
            archive.addfile(entry, io.BytesIO(body))
    return name
