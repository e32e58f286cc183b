"""Builds the wheel: the package kip with libkip.so in it. It needs neither setuptools nor the network, so `pip install` works offline.

The library is that of the environment variable KIP_SO, else kip/libkip.so, which is the repository's prebuilt one. The same files give
the same bytes.
"""
import base64
import hashlib
import os
import pathlib
import re
import zipfile

HERE = pathlib.Path(__file__).resolve().parent
# libkip.so needs glibc 2.14, which is below what this tag asks for.
TAG = "py3-none-manylinux_2_17_x86_64"


def _files():
    """Returns each file of the package with its bytes."""
    own = {f"kip/{path.name}": path.read_bytes() for path in sorted((HERE / "kip").iterdir()) if path.suffix in (".py", ".typed")}
    library = pathlib.Path(os.environ.get("KIP_SO") or HERE / "kip/libkip.so")
    return {**own, "kip/py.typed": b"", "kip/libkip.so": library.read_bytes()}


def _line(name, data):
    sum_of_bytes = base64.urlsafe_b64encode(hashlib.sha256(data).digest()).rstrip(b"=").decode()
    return f"{name},sha256={sum_of_bytes},{len(data)}\n"


def get_requires_for_build_wheel(config_settings=None):
    return []


get_requires_for_build_editable = get_requires_for_build_wheel


def build_wheel(wheel_directory, config_settings=None, metadata_directory=None):
    """Writes the wheel and returns its name."""
    return _write(wheel_directory, _files())


def build_editable(wheel_directory, config_settings=None, metadata_directory=None):
    """Writes a wheel that only names this folder, for `pip install -e`, and returns its name. It has all modules of this folder."""
    return _write(wheel_directory, {"kip.pth": f"{HERE}\n".encode()})


def _write(wheel_directory, files):
    """Writes a wheel of these files and its own, and returns its name."""
    project = dict(re.findall(r'^([\w-]+) = "(.*)"$', (HERE / "pyproject.toml").read_text().partition("[project]")[2], re.M))
    name = f"{project['name']}-{project['version']}"
    info = f"{name}.dist-info"
    metadata = "".join(f"{key}: {value}\n" for key, value in {
        "Metadata-Version": "2.1", "Name": project["name"], "Version": project["version"],
        "Summary": project["description"], "Requires-Python": project["requires-python"],
    }.items())
    files[f"{info}/METADATA"] = metadata.encode()
    files[f"{info}/WHEEL"] = f"Wheel-Version: 1.0\nGenerator: wheel_backend\nRoot-Is-Purelib: false\nTag: {TAG}\n".encode()
    record = "".join(_line(*file) for file in files.items()) + f"{info}/RECORD,,\n"
    files[f"{info}/RECORD"] = record.encode()
    wheel = f"{name}-{TAG}.whl"
    with zipfile.ZipFile(pathlib.Path(wheel_directory) / wheel, "w", zipfile.ZIP_DEFLATED) as archive:
        for path, data in files.items():
            entry = zipfile.ZipInfo(path, (1980, 1, 1, 0, 0, 0))
            entry.external_attr = (0o755 if path.endswith(".so") else 0o644) << 16
            entry.compress_type = zipfile.ZIP_DEFLATED
            archive.writestr(entry, data)
    return wheel
