"""What the page of the package shows."""

import doctest
import re
import sys
import unittest

import pdb_container

from . import FOLDER, SAMPLE

# In the repository, or in a source distribution.
PAGE = next((it for it in (FOLDER.parent / "docs/PYTHON.md", FOLDER / "README.md") if it.exists()), None)


@unittest.skipIf(PAGE is None, "the page is not here")
class Page(unittest.TestCase):
    @unittest.skipIf(sys.version_info < (3, 10), "a version without match")
    def test_sessions(self):
        """What the interpreter answers on the page is what it answers."""
        sessions = re.findall(r"^```pycon\n(.*?)^```$", PAGE.read_text(encoding="utf-8"), re.MULTILINE | re.DOTALL)
        self.assertTrue(sessions)
        names = {"pdb_container": pdb_container}
        for session in sessions:
            text = session.replace('"examples/sample.pdb"', repr(str(SAMPLE)))
            told = []
            doctest.DocTestRunner(verbose=False).run(doctest.DocTestParser().get_doctest(text, names, PAGE.name, None, 0), out=told.append)
            self.assertEqual("".join(told), "")

    def test_length(self):
        self.assertLessEqual(PAGE.stat().st_size, 4096)
