"""Makes the sample file examples/sample.pdb from examples/sample.cpp.

LLD writes no image that was rearranged, no frames in the older format, and streams of one page after another. So
that the file has all that this library reads, the functions of the image are laid out anew, as a profiling tool
would do it, and the streams are laid over pages of 512 bytes in no order.
"""

import struct
import subprocess
import tempfile
from pathlib import Path

from pdbtest.addresses import omap_bytes
from pdbtest.msf import DEBUG, scatter, streams_of
from pdbtest.programs import ROOT
from pdbtest.report import Trouble
from pdbtest.roles import role_numbers, with_roles
from pdbtest.tools import tool

SOURCE, SAMPLE = ROOT / "examples/sample.cpp", ROOT / "examples/sample.pdb"
PAGE_SIZE = 512
SECTIONS, FRAMES = "section_headers", "framedata"
MADE_BY = ["Debian clang version 14.0.6", "Debian LLD 14.0.6"]

COMPILE = "--target=i686-pc-windows-msvc -O1 -g -gcodeview -ffile-compilation-dir=/sample -fno-rtti -fno-exceptions"
COMPILE += " -fno-threadsafe-statics -c sample.cpp -o sample.obj"
LINK = "/nologo /debug /nodefaultlib /entry:mainCRTStartup /subsystem:console /safeseh:no /Brepro"
LINK += " /pdbsourcepath:/sample /pdbaltpath:sample.pdb /out:sample.exe /pdb:sample.pdb sample.obj"


def run(name, words, room):
    """Runs a tool by its name, and returns what it prints."""
    # The file tells by which name the linker was run: so not by its path.
    ran = subprocess.run([name, *words.split()], executable=tool(name), cwd=room, capture_output=True)
    if ran.returncode:
        raise Trouble(f"{name} ended with status {ran.returncode}: {ran.stderr.decode(errors='replace').strip()}")
    return ran.stdout.decode(errors="replace")


def versions():
    """Who makes the file: the first line of what each tool says of itself."""
    return [run(name, "--version", ".").splitlines()[0].split(" (")[0] for name in ("clang", "lld-link")]


def linked(room):
    """The streams of the file that LLD makes."""
    (room / "sample.cpp").write_bytes(SOURCE.read_bytes())
    run("clang", COMPILE, room)
    run("lld-link", LINK, room)
    return streams_of(room / "sample.pdb")


def functions(text, frames):
    """Where each function of a section begins, and where the last one ends, all at multiples of 16."""
    # A frame begins with its address and ends with its flags, of which bit 2 says that a function begins there.
    found = [struct.unpack_from("<I24xI", frames, at) for at in range(0, len(frames), 32)]
    starts = [start for start, flags in found if flags & 4]
    size, address = struct.unpack_from("<2I", text, 8)
    return [address, *starts, -(-(address + size) // 16) * 16]


def rearranged(text, frames):
    """Both OMAP tables and the section's header, of an image with its functions in another order."""
    starts = functions(text, frames)
    sizes = {start: after - start for start, after in zip(starts, starts[1:])}
    hand_written, unused, *others = sizes
    # Those that run last come first, and one that never runs is gone.
    place, moved = starts[0], {unused: 0}
    for start in [*reversed(others), hand_written]:
        moved[start], place = place, place + sizes[start]
    next_section = (starts[0] | 0xFFF) + 1
    from_src = sorted([*moved.items(), (next_section, next_section)])
    to_src = sorted([(new, old) for old, new in from_src if new] + [(place, 0)])
    header = text[:8] + struct.pack("<I", place - starts[0]) + text[12:]
    return omap_bytes(to_src), omap_bytes(from_src), header


def sample():
    """The bytes of the file."""
    with tempfile.TemporaryDirectory(prefix="sample-") as room:
        streams = linked(Path(room))
    roles = role_numbers(streams[DEBUG])
    sections, frames = streams[roles[SECTIONS]], streams[roles[FRAMES]]
    to_src, from_src, text = rearranged(sections[:40], frames)
    # The function that is written by hand: 16 bytes, and one argument of four bytes.
    (first,) = struct.unpack_from("<I", frames)
    (start,) = struct.unpack_from("<I", sections, 12)
    older = struct.pack("<3I2H", start, first - start, 0, 1, 0)
    streams[roles[SECTIONS]] = text + sections[40:]
    added = {"omap_to_src": to_src, "omap_from_src": from_src, "original_section_headers": sections, "fpo": older}
    return scatter(with_roles(streams, added), PAGE_SIZE)
