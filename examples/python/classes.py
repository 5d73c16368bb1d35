#!/usr/bin/env python3
"""Prints the largest classes of a program database, each with its members.

usage: PYTHONPATH=python python3 examples/python/classes.py FILE
"""

import sys

import pdb_container
from pdb_container import Class, Member

MOST = 5


def main():
    with pdb_container.open(sys.argv[1]) as pdb:
        classes = [it for it in pdb.types if isinstance(it, Class) and it.is_definition]
        for it in sorted(classes, key=lambda it: (-it.size, it.index))[:MOST]:
            print(it.size, it.name)
            for field in it.fields:
                if isinstance(field, Member):
                    print(f"  +{field.offset} {field.name}")


if __name__ == "__main__":
    main()
