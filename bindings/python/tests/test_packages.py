"""Tests the wheel and the sdist: each has the licenses, and the sdist makes the same wheel.

FANLIGHTNARD_PREFIX names the folder that `bindings/build` made.
"""

from __future__ import annotations

import email
import importlib.util
import pathlib
import tarfile
import tempfile
import unittest
import zipfile
from email.message import Message
from typing import Any, Dict

TOP = pathlib.Path(__file__).resolve().parents[1]
NAME = "fanlightnard-0.1.0"
LICENSES = {"LICENSE": "Copyright (c) 2021 Maxim Zhiburt", "LICENSE-UNICODE": "UNICODE LICENSE V3"}


def build_backend(folder: pathlib.Path) -> Any:
    spec = importlib.util.spec_from_file_location("build_backend", folder / "build_backend.py")
    assert spec and spec.loader
    module = importlib.util.module_from_spec(spec)
    spec.loader.exec_module(module)
    return module


def wheel_of(folder: pathlib.Path, made: pathlib.Path) -> Dict[str, bytes]:
    """Returns the files of the wheel of a folder."""
    with zipfile.ZipFile(made / build_backend(folder).build_wheel(made)) as wheel:
        return {name: wheel.read(name) for name in wheel.namelist()}


class Packages(unittest.TestCase):
    def setUp(self) -> None:
        folder = tempfile.TemporaryDirectory()
        self.addCleanup(folder.cleanup)
        self.made = pathlib.Path(folder.name)

    def check_licenses(self, texts: Dict[str, str], metadata: Message) -> None:
        for name, line in LICENSES.items():
            self.assertEqual(texts[name], (TOP / name).read_text("utf-8"))
            self.assertIn(line, texts[name])
        self.assertEqual(metadata["License-Expression"], "MIT AND Unicode-3.0")
        self.assertEqual(metadata.get_all("License-File"), list(LICENSES))

    def test_the_wheel_has_the_licenses(self) -> None:
        files = wheel_of(TOP, self.made)
        info = f"{NAME}.dist-info"
        texts = {name: files[f"{info}/licenses/{name}"].decode() for name in LICENSES}
        self.check_licenses(texts, email.message_from_bytes(files[f"{info}/METADATA"]))
        listed = [line.split(",")[0] for line in files[f"{info}/RECORD"].decode().splitlines()]
        self.assertEqual(sorted(listed), sorted(files))

    def test_the_sdist_has_the_licenses(self) -> None:
        with tarfile.open(self.made / build_backend(TOP).build_sdist(self.made)) as sdist:
            self.assertTrue(all(member.isfile() or member.isdir() for member in sdist))
            sdist.extractall(self.made)
        folder = self.made / NAME
        texts = {name: (folder / name).read_text("utf-8") for name in LICENSES}
        self.check_licenses(texts, email.message_from_string((folder / "PKG-INFO").read_text("utf-8")))
        self.assertEqual(wheel_of(folder, folder), wheel_of(TOP, self.made))


if __name__ == "__main__":
    unittest.main()
