"""Frames of both formats: as their bytes are laid out, as llvm-pdbutil tells of them, and as pdbdump shows them."""

import re
import struct

from pdbtest import llvm
from pdbtest.calls import objects_of
from pdbtest.msf import DEBUG, streams_of
from pdbtest.roles import role_numbers

KINDS = ["fpo", "trap", "tss", "std"]  # of the older format, by the two highest bits of its attributes
LLVM_KINDS = ["FPO", "Trap", "TSS", "Non-FPO"]

# The flags of an older frame, in its attributes: those of FPO_DATA in winnt.h, whose lowest byte is the size of the
# prolog. LLVM, also 19, takes two other bits, which belong to the number of saved registers (0x0700), and only the
# low four bits of the prolog's size. So of what LLVM tells these three are compared with the bits that it takes.
OLD_PROLOG, OLD_SEH, OLD_BASE_POINTER = 0xFF, 0x0800, 0x1000
LLVM_PROLOG, LLVM_SEH, LLVM_BASE_POINTER = 0x0F, 0x0200, 0x0400

NEW_SEH, NEW_CPP_EH, NEW_START = 1, 2, 4


def old_frame(start, size, local_words, parameter_words, attributes):
    """A frame of the older format as pdbdump shows it, and as LLVM tells of it."""
    kind, registers = attributes >> 14, attributes >> 8 & 7
    shown = {
        "code_start": start, "code_size": size, "locals_size": 4 * local_words, "params_size": 4 * parameter_words,
        "prolog_size": attributes & OLD_PROLOG, "saved_regs_size": 4 * registers, "ty": KINDS[kind],
        "has_structured_eh": bool(attributes & OLD_SEH), "has_cpp_eh": False, "is_function_start": False,
        "uses_base_pointer": bool(attributes & OLD_BASE_POINTER),
    }  # fmt: skip
    flags = (bool(attributes & bit) for bit in (LLVM_BASE_POINTER, LLVM_SEH))
    numbers = (size, local_words, parameter_words, attributes & LLVM_PROLOG, registers)
    return shown, [f"{start:08X}", *map(str, numbers), *(str(flag).lower() for flag in flags), LLVM_KINDS[kind]]


def new_frame(names, start, size, local_bytes, parameter_bytes, stack, program, prolog, registers, flags):
    """The same of a frame of the newer format, whose program is a name of the string table."""
    is_set = [bool(flags & bit) for bit in (NEW_SEH, NEW_CPP_EH, NEW_START)]
    shown = {
        "code_start": start, "code_size": size, "locals_size": local_bytes, "params_size": parameter_bytes,
        "prolog_size": prolog, "saved_regs_size": registers, "max_stack_size": stack, "ty": "fdata",
        **dict(zip(("has_structured_eh", "has_cpp_eh", "is_function_start"), is_set)),
        "uses_base_pointer": False, "program": names[program],
    }  # fmt: skip
    numbers = (size, local_bytes, parameter_bytes, stack, prolog, registers)
    words = [f"{start:08X}", *map(str, numbers), *(str(flag).lower() for flag in is_set), names[program].strip()]
    return shown, words


def frames_told(text):
    """The words of each line of a table of frames."""
    lines = re.findall(r"^[0-9A-F]{8} \|.*$", text, re.MULTILINE)
    return [[word.strip() for word in line.split("|")] for line in lines]


def check_frames(tally, dumpers, file):
    """The frames of both formats, each alone and both together. Returns how many there are."""
    streams = streams_of(file)
    numbers, names = role_numbers(streams[DEBUG]), dict(llvm.names(file))
    stored = {role: streams[numbers[role]] if role in numbers else b"" for role in ("fpo", "framedata")}
    old = [old_frame(*record) for record in struct.iter_unpack("<3I2H", stored["fpo"])]
    new = [new_frame(names, *record) for record in struct.iter_unpack("<6I2HI", stored["framedata"])]
    told_old, _, told_new = llvm.dump(file, "fpo").partition("New FPO Data")
    for frames, told in ((old, frames_told(told_old)), (new, frames_told(told_new))):
        wanted = [words for _, words in frames]
        tally.check(told == wanted, f"{file.name}: LLVM tells of frames as {told}, and not as {wanted}")

    old, new = ([shown for shown, _ in frames] for frames in (old, new))
    starts = {frame["code_start"] for frame in new}
    both = [*new, *(frame for frame in old if frame["code_start"] not in starts)]
    cases = [([], sorted(both, key=lambda frame: frame["code_start"]))]
    cases += [(["--old", numbers["fpo"]], old)] if "fpo" in numbers else []
    cases += [(["--new", numbers["framedata"]], new)] if "framedata" in numbers else []
    for dumper in dumpers:
        for words, wanted in cases:
            came = objects_of(tally, dumper, ["frames", "--json", *words, file])
            tally.check(came == wanted, f"{file.name}: {dumper.name} frames {words}: {came} and not {wanted}")
    return len(old) + len(new)
