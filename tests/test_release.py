"""The page that a release hands out, release/agcws.html: it is of the newest version, and of a proved program; and where nothing has changed it comes to the same bytes."""
import importlib.machinery
import importlib.util
import json
import re
import unittest

from common import ROOT, read, text_of
import released
import toolchain


def script(path):
    """A script of the repository as a module of Python."""
    loader = importlib.machinery.SourceFileLoader(path.replace("/", "_"), f"{ROOT}/{path}")
    made = importlib.util.module_from_spec(importlib.util.spec_from_loader(loader.name, loader))
    loader.exec_module(made)
    return made


class Release(unittest.TestCase):
    def setUp(self):
        self.page = read(released.PAGE)
        self.said = released.about(released.module_in(self.page))

    def test_it_is_of_the_newest_version(self):
        version = re.search(r"^## (\S+)", text_of("CHANGELOG.md"), re.M)[1]
        self.assertEqual(self.said["version"][: len(version)], version)

    def test_it_is_of_a_proved_program(self):
        self.assertTrue(self.said["proved"], f"{self.said}")

    def test_it_comes_to_the_same_bytes(self):
        if json.loads(read(released.MADE_OF)) != released.made_of():
            self.skipTest("sources or toolchain have changed since; the page is not made anew")
        if not toolchain.bitcode(script("gate/pack").program_crate()):
            self.skipTest("the bitcode of the proved program is not kept; the page is not made anew")
        self.assertTrue(script("page/release").made_page() == self.page, "it does not")


if __name__ == "__main__":
    unittest.main()
