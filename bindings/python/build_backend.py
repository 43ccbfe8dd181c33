"""Builds the wheel, by the interface of PEP 517. It needs nothing but Python.

The wheel holds the shared object of the folder that `bindings/build` made, and the licences that go
with it. FANLIGHTNARD_PREFIX names that folder; without it, `src/fanlightnard/libfanlightnard.so`
and the licences beside this file are taken.
"""

import base64
import hashlib
import io
import os
import pathlib
import sysconfig
import tarfile
import zipfile

HERE = pathlib.Path(__file__).resolve().parent
NAME, VERSION = "fanlightnard", "0.1.0"
LIBRARY = "libfanlightnard.so"
LICENSES = ("LICENSE", "LICENSE-UNICODE")


def _read(in_prefix: str, here: pathlib.Path) -> bytes:
    prefix = os.environ.get("FANLIGHTNARD_PREFIX")
    path = pathlib.Path(prefix) / in_prefix if prefix else here
    if not path.exists():
        raise SystemExit(
            f"there is no {path}: run bindings/build DIR, and set FANLIGHTNARD_PREFIX to DIR"
        )
    return path.read_bytes()


def _metadata() -> str:
    files = "".join(f"License-File: {name}\n" for name in LICENSES)
    return (
        f"Metadata-Version: 2.4\nName: {NAME}\nVersion: {VERSION}\n"
        "Summary: Text tables whose edges line up whatever the cells contain\n"
        f"License-Expression: MIT AND Unicode-3.0\n{files}"
        "Requires-Python: >=3.9\nClassifier: Typing :: Typed\n"
        "Description-Content-Type: text/markdown\n\n" + (HERE / "README.md").read_text("utf-8")
    )


def build_wheel(wheel_directory, config_settings=None, metadata_directory=None):
    platform = sysconfig.get_platform().replace("-", "_").replace(".", "_")
    tag = f"py3-none-{platform}"
    info = f"{NAME}-{VERSION}.dist-info"
    files = {f"{NAME}/{LIBRARY}": _read(f"lib/{LIBRARY}", HERE / "src" / NAME / LIBRARY)}
    for path in sorted((HERE / "src" / NAME).iterdir()):
        if path.suffix == ".py" or path.name == "py.typed":
            files[f"{NAME}/{path.name}"] = path.read_bytes()
    for name in LICENSES:
        files[f"{info}/licenses/{name}"] = _read(f"share/licenses/{NAME}/{name}", HERE / name)
    files[f"{info}/METADATA"] = _metadata().encode()
    files[f"{info}/WHEEL"] = (
        f"Wheel-Version: 1.0\nGenerator: build_backend\nRoot-Is-Purelib: false\nTag: {tag}\n"
    ).encode()
    record = "".join(
        f"{name},sha256={_digest(data)},{len(data)}\n" for name, data in files.items()
    )
    files[f"{info}/RECORD"] = f"{record}{info}/RECORD,,\n".encode()
    wheel = f"{NAME}-{VERSION}-{tag}.whl"
    with zipfile.ZipFile(pathlib.Path(wheel_directory) / wheel, "w", zipfile.ZIP_DEFLATED) as made:
        for name, data in files.items():
            made.writestr(name, data)
    return wheel


def _digest(data: bytes) -> str:
    digest = base64.urlsafe_b64encode(hashlib.sha256(data).digest())
    return digest.rstrip(b"=").decode()


def build_sdist(sdist_directory, config_settings=None):
    archive = f"{NAME}-{VERSION}.tar.gz"
    files = ("pyproject.toml", "build_backend.py", "README.md", "src", "tests", *LICENSES)
    with tarfile.open(pathlib.Path(sdist_directory) / archive, "w:gz") as made:
        for path in files:
            made.add(HERE / path, f"{NAME}-{VERSION}/{path}")
        info = tarfile.TarInfo(f"{NAME}-{VERSION}/PKG-INFO")
        data = _metadata().encode()
        info.size = len(data)
        made.addfile(info, io.BytesIO(data))
    return archive
