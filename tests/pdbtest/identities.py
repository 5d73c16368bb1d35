"""What identifies a file, by its bytes and by LLVM, and what `pdbdump id` has to say of it."""

import json
import struct
import uuid

from pdbtest import llvm
from pdbtest.calls import Outcome, call, check_call, check_misused
from pdbtest.msf import DEBUG, INFORMATION, Refused, streams_of, word

CPUS = {0x8664: "x86_64", 0x14C: "x86", 0xAA64: "arm64", 0x1C4: "arm", 0x1C0: "arm"}  # that of an older ARM too
LLVM_MACHINES = {"Amd64": 0x8664, "x86": 0x14C, "Arm64": 0xAA64, "ArmNT": 0x1C4, "I386": 0x14C}
STRIPPED = 2  # the bit of the flags
VC110, VC140, NO_TYPE_MERGE, MINIMAL = 20091201, 20140508, 0x4D544F4E, 0x494E494D  # the last two spell NOTM and MINI
FEATURES = {VC110: "vc110", VC140: "vc140", NO_TYPE_MERGE: "no-type-merge", MINIMAL: "minimal"}
LLVM_FEATURES = {"VC110": "vc110", "VC140": "vc140", "NoTypeMerge": "no-type-merge", "MinimalDebugInfo": "minimal"}


def behind_names(information):
    """Where in stream 1 the names of streams and their table end."""
    place = 32 + word(information, 28)
    count, place = word(information, place), place + 8  # behind the capacity
    for _ in ("present", "deleted"):
        place += 4 + 4 * word(information, place)
    place += 8 * count
    if place > len(information):
        raise Refused("UnexpectedEof")
    return place


def features_of(information):
    """The names of the features whose numbers stand behind the names of streams, None if stream 1 ends before."""
    try:
        place = behind_names(information)
    except Refused:
        return None
    told = list(struct.unpack_from(f"<{(len(information) - place) // 4}I", information, place))
    if VC110 in told:
        told = told[: told.index(VC110) + 1]
    return [name for number, name in FEATURES.items() if number in told]


class Wanted:
    """What identifies a file, read by this script from the bytes of streams 1 and 3."""

    def __init__(self, file):
        streams = streams_of(file)
        version, signature, age = struct.unpack_from("<3I", streams[INFORMATION])
        guid = uuid.UUID(bytes_le=streams[INFORMATION][12:28])
        debug = streams[DEBUG] if len(streams) > DEBUG else b""
        self.guid, self.signature, self.version, self.information_age = str(guid).upper(), signature, version, age
        self.machine = self.is_stripped = None
        self.age, self.age_from = age, "pdb"
        if debug:
            self.age, self.age_from = struct.unpack_from("<I", debug, 8)[0], "dbi"
            flags, self.machine = struct.unpack_from("<2H", debug, 56)
            self.is_stripped = bool(flags & STRIPPED)
        self.features = features_of(streams[INFORMATION])
        self.key = f"{guid.hex.upper()}{self.age:X}"
        self.cpu = CPUS.get(self.machine, "unknown")

    def members(self, name):
        """The object that `id --json` is to write."""
        there = {"machine": self.machine, "stripped": self.is_stripped, "features": self.features}
        return {
            "name": name, "format": "MSF 7.00", "guid": self.guid, "age": self.age, "age_from": self.age_from,
            "information_age": self.information_age, "signature": self.signature, "version": self.version,
            "cpu": self.cpu, "key": self.key, **{member: value for member, value in there.items() if value is not None},
        }  # fmt: skip

    def line(self, style, name):
        """The line of a format."""
        return {
            "key": f"{name}/{self.key}/{name}\n",
            "ssqp": f"{name}/{self.key}/{name}\n".lower(),
            "breakpad": f"MODULE windows {self.cpu} {self.key} {name}\n",
            "guid": f"{self.guid}\n",
        }[style].encode()


def check_readings(tally, file, image, wanted):
    """That LLVM reads a file as this script does, so that `id` is compared with both."""
    if image:
        is_same = llvm.debug_directory(image) == (wanted.guid, wanted.age)
        tally.check(is_same, f"{file.name}: the debug directory of {image.name} says otherwise")
    if file.stem in ("few", "absent") or file.stem.startswith(("odd_", "cut_")):
        return  # LLVM reads no file without a stream 3, and none whose stream 1 ends within a number or a name
    features = {LLVM_FEATURES[name] for name in llvm.features(file)}
    tally.check(features == set(wanted.features), f"{file.name}: llvm-pdbutil says {features}")
    guid, age, signature, is_stripped = llvm.summary(file)
    is_same = (guid, age, signature) == (wanted.guid, wanted.information_age, wanted.signature)
    tally.check(is_same, f"{file.name}: llvm-pdbutil says {guid} {age} {signature}")
    if wanted.age_from == "dbi":
        is_same = is_stripped == wanted.is_stripped
        tally.check(is_same, f"{file.name}: llvm-pdbutil says otherwise whether it is stripped")
        if wanted.machine in LLVM_MACHINES.values():
            age, machine = llvm.debug_header(file)
            is_same = (age, LLVM_MACHINES.get(machine)) == (wanted.age, wanted.machine)
            tally.check(is_same, f"{file.name}: llvm-pdbutil says {age} {machine}")


def check_identity(tally, dumpers, file, image):
    """That a file is told of in each format, and is or is not the one that is expected."""
    wanted = Wanted(file)
    check_readings(tally, file, image, wanted)
    for dumper in dumpers:
        check = lambda words, *outcome, given=None: check_call(tally, dumper, ["id", *words], Outcome(*outcome), given)
        came = call(dumper, ["id", "--json", file])
        try:
            members = json.loads(came.out)
        except ValueError:
            members = None
        is_same = members == wanted.members(file.name)
        tally.check(is_same, f"{dumper.name} id --json {file.name}: {came.out!r} {came.err!r}")
        for style in ("key", "ssqp", "breakpad", "guid"):
            check(["--format", style, file], 0, wanted.line(style, file.name))
        name = "Other Name.PDB"
        check([file, "--name", name], 0, wanted.line("key", name))
        check(["--format", "ssqp", "--name", name, "-"], 0, wanted.line("ssqp", name), given=file.read_bytes())
        line = wanted.line("key", file.name)
        for key in (wanted.key, wanted.key.lower()):
            check(["--expect", key, file], 0, line)
        for key in (wanted.key[:32] + "0" * 8, wanted.key[:31] + wanted.key[-1] + "12345678", wanted.key[:32] + "f"):
            if int(key[32:], 16) != wanted.age:
                told = f"pdbdump: {file}: the file has another key than the expected one\n".encode()
                check(["--expect", key, file], 1, line, told)
        for word in (wanted.key[:32], wanted.key[:32] + "0" * 9, wanted.key[:-1] + "g", wanted.guid, "xyz"):
            check_misused(tally, dumper, ["id", "--expect", word, file])
