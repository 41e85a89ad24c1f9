"""The version is one: `python3 tools/test_version.py` from the project's folder.

The file VERSION says it; Cargo's packages, the C header and the newest head of CHANGELOG.md repeat it. The toolchain that everything is
proved with stands in docs/CHECKING.md as `rt version` prints it."""
import re
import shutil
import subprocess
import unittest
from pathlib import Path

ROOT = Path(__file__).parent.parent
VERSION = (ROOT / "VERSION").read_text(encoding="utf-8").strip()


def said(pattern, path):
    """What the matches of a pattern in a file say."""
    return re.findall(pattern, (ROOT / path).read_text(encoding="utf-8"), re.MULTILINE)


class Version(unittest.TestCase):
    def test_packages(self):
        for folder in ("benchmark", "library", "reference"):
            for name in ("Cargo.toml", "Cargo.lock"):
                versions = said(r'^version = "(\d+\.\d+\.\d+)"', f"{folder}/{name}")
                self.assertEqual(set(versions), {VERSION}, f"{folder}/{name}")

    def test_header(self):
        self.assertEqual(said(r'^#define MIRVACULA_VERSION "([^"]*)"', "library/mirvacula.h"), [VERSION])

    def test_newest_change(self):
        self.assertEqual(said(r"^## (.*)$", "CHANGELOG.md")[0], VERSION)

    @unittest.skipUnless(shutil.which("rt"), "rt is not there")
    def test_toolchain(self):
        printed = subprocess.run(["rt", "version"], capture_output=True, text=True, check=True).stdout.strip()
        self.assertEqual(said(r"^    (rattle-kit-.*)$", "docs/CHECKING.md"), [printed])


if __name__ == "__main__":
    unittest.main()
