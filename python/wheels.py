"""Builds the package for `pip install .`, by pyproject.toml alone, so that no tool that builds packages has to be there."""

from __future__ import annotations

import base64
import hashlib
import tomllib
import zipfile
from pathlib import Path
from typing import Any

TOP = Path(__file__).resolve().parent.parent
WHEEL = "Wheel-Version: 1.0\nGenerator: c104\nRoot-Is-Purelib: true\nTag: py3-none-any\n"


def build_wheel(folder: str, config_settings: Any = None, metadata_directory: Any = None) -> str:
    """Writes a wheel into a folder, and returns the name of its file: what pip calls."""
    project = tomllib.loads((TOP / "pyproject.toml").read_text(encoding="utf-8"))["project"]
    stem = f"{project['name']}-{project['version']}"
    files = {f"c104/{file.name}": file.read_bytes() for file in sorted((TOP / "python" / "c104").glob("*.*"))}
    files |= {f"{stem}.dist-info/{name}": text.encode() for name, text in told(project).items()}
    record = "".join(f"{name},sha256={digest(data)},{len(data)}\n" for name, data in files.items())
    files[f"{stem}.dist-info/RECORD"] = f"{record}{stem}.dist-info/RECORD,,\n".encode()
    name = f"{stem}-py3-none-any.whl"
    with zipfile.ZipFile(Path(folder, name), "w", zipfile.ZIP_DEFLATED) as wheel:
        for path, data in files.items():
            wheel.writestr(path, data)
    return name


def told(project: dict[str, Any]) -> dict[str, str]:
    """What a wheel says of itself, in files by their names."""
    metadata = {"Metadata-Version": "2.1", "Name": project["name"], "Version": project["version"],
                "Summary": project["description"], "Requires-Python": project["requires-python"]}
    scripts = "".join(f"{name} = {place}\n" for name, place in project["scripts"].items())
    return {"WHEEL": WHEEL, "METADATA": "".join(f"{name}: {value}\n" for name, value in metadata.items()),
            "entry_points.txt": f"[console_scripts]\n{scripts}"}


def digest(data: bytes) -> str:
    """The SHA-256 of a file, as a wheel's record has it."""
    return base64.urlsafe_b64encode(hashlib.sha256(data).digest()).rstrip(b"=").decode()
