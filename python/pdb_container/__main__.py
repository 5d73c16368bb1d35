"""Shows what a program database holds.

usage: python3 -m pdb_container FILE [NAME]..   NAME is a class, a union or an enumeration, which is shown with its fields
"""

import sys
from collections import Counter

from . import Enumerator, LibraryError, Pdb, PdbError, open


def print_summary(pdb: Pdb) -> None:
    print(f"key {pdb.identity.key()}, pages of {pdb.page_size} bytes")
    for stream in pdb.streams:
        size = "absent" if stream.size is None else f"{stream.size} bytes"
        print(f"stream {stream.number}: {size} {stream.name or stream.role or ''}".rstrip())
    shapes = Counter("not read" if it.shape is None else it.shape.name.lower() for it in pdb.types)
    print(f"{len(pdb.types)} types: {', '.join(f'{count} {shape}' for shape, count in shapes.most_common())}")
    print(f"{len(pdb.ids)} ids")


def print_type(pdb: Pdb, name: str) -> None:
    found = pdb.types[name]
    shape = "" if found.shape is None else found.shape.name.lower()
    print(f"{found.index:#x} {shape} {name}" + ("" if found.number is None else f", {found.number} bytes"))
    for field in found.fields:
        number = field.value if isinstance(field, Enumerator) else field.number
        print(f"  {field.shape.name.lower()} {field.name or '-'}" + ("" if number is None else f" {number}"))


def main() -> int:
    words = sys.argv[1:]
    if not words or words[0].startswith("-"):
        print(__doc__.strip(), file=sys.stdout if words[:1] == ["--help"] else sys.stderr)
        return 0 if words[:1] == ["--help"] else 2
    try:
        with open(words[0]) as pdb:
            for name in words[1:]:
                print_type(pdb, name)
            if not words[1:]:
                print_summary(pdb)
    except KeyError as error:
        print(f"{words[0]}: no type of this name: {error.args[0]}", file=sys.stderr)
    except (PdbError, OSError) as error:
        print(f"{words[0]}: {error}", file=sys.stderr)
    except LibraryError as error:
        print(error, file=sys.stderr)
    else:
        return 0
    return 1


if __name__ == "__main__":
    sys.exit(main())
