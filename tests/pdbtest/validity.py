"""What `pdbdump validate` says of files, compared with what the reader of whole files says."""

import collections
import json
import re

from pdbtest.calls import call
from pdbtest.reading import Fault, Reading
from pdbtest.relations import INCONSISTENCIES, WARNINGS

# What `validate` says of a whole file.
WHOLE = "whole (types, ids, names, sections, addresses, frames; modules and symbols are not read)"


def validate(dumper, words, given=None):
    """What `validate` gives."""
    return call(dumper, ["validate", *words], given)


def said(lines):
    """What lines of JSON say of files: of each its path, what is wrong in its parts, and how many errors and warnings
    that is with what is inconsistent between them; None by other lines."""
    found, faults, counts = [], [], collections.Counter()
    try:
        for members in map(json.loads, lines.decode().splitlines()):
            if "code" in members:
                if not re.fullmatch(INCONSISTENCIES.get(members["code"], ".+"), members["problem"]):
                    return None
                faults.append(Fault(*(members.get(name) for name in Fault._fields)))
                is_warning = faults[-1].code in WARNINGS
                if members["severity"] != ("warning" if is_warning else "error"):
                    return None
                counts[members["severity"]] += 1
                continue
            numbers = {"whole": not counts["error"], "errors": counts["error"], "warnings": counts["warning"]}
            if members != {"file": members["file"], **numbers}:
                return None
            found.append((members["file"], faults, numbers))
            faults, counts = [], collections.Counter()
    except (ValueError, KeyError):
        return None
    return found


def check_agrees(tally, dumper, files, *options):
    """That the program says of the parts of each file what the reader says."""
    wanted = [(str(file), Reading(file.read_bytes(), "--all" in options).faults) for file in files]
    came = validate(dumper, ["--json", *options, *files])
    found = said(came.out)
    if found is None or len(found) != len(wanted):
        tally.check(False, f"{dumper.name}: other lines than wanted: {came.out[:300]!r}")
        return
    counted = ("errors", "warnings") if "--strict" in options else ("errors",)
    status = int(any(numbers[name] for _, _, numbers in found for name in counted))
    is_well = came.status == status and not came.err
    tally.check(is_well, f"{dumper.name}: status {came.status} of {files[0]}.., {came.err[:200]!r}")
    for one, other in zip(wanted, found):
        tally.check(one == other[:2], f"{dumper.name} {one[0]}: {other[1]}, and the reader: {one[1]}")
