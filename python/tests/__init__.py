"""The tests of the package, in the repository or in a source distribution, of the package that is imported."""

import contextlib
import pathlib

import pdb_container

FOLDER = pathlib.Path(__file__).resolve().parents[1]
SAMPLE = next(it for it in (root / "examples/sample.pdb" for root in (FOLDER, FOLDER.parent)) if it.exists())
PACKAGE = pathlib.Path(pdb_container.__file__).resolve().parents[1]


def parts_of(it):
    """The public properties of a type, a field or an id, by their names, but those that the file's damage makes an error."""
    parts = {}
    for name in dir(type(it)):
        if not name.startswith("_"):
            with contextlib.suppress(pdb_container.PdbError, KeyError):
                parts[name] = getattr(it, name)
    return parts
