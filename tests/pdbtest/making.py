"""Makes program databases by Clang, LLD and GNU ld."""

import random

from pdbtest.addresses import OMAP, omap_bytes
from pdbtest.sources import CALLED, CALLER, FRAMES, OLD_FRAMES, TINY
from pdbtest.tools import LINKER, run_tool, tool


def make_pdb(room, name, sources, flags=(), machine="x86_64", options=()):
    """Compiles these sources and links them with flags of LLD's, and returns the path of their program database."""
    objects = []
    for source, text in sources.items():
        (room / source).write_text(text, encoding="utf-8")
        objects.append(f"{source}.obj")
        words = [f"--target={machine}-pc-windows-msvc"]
        words += [] if source.endswith(".s") else ["-g", "-gcodeview", *options]
        words += ["-fno-rtti", "-fno-exceptions"] if source.endswith(".cpp") else []
        run_tool(["clang", *words, "-c", source, "-o", objects[-1]], room)
    words = ["/debug", "/nodefaultlib", "/entry:mainCRTStartup", "/subsystem:console"]
    words += ["/safeseh:no"] if machine == "i686" else []
    run_tool(["lld-link", *words, f"/out:{name}.exe", f"/pdb:{name}.pdb", *flags, *objects], room)
    return room / f"{name}.pdb"


def make_frames(room):
    """A file of a 32-bit program, with frames in both formats."""
    sources = {"frames.c": FRAMES, "old.s": OLD_FRAMES}
    return make_pdb(room, "frames", sources, machine="i686", options=["-O1", "-fomit-frame-pointer"])


def make_gnu(room):
    """A file that GNU ld makes."""
    (room / "gnu.c").write_text(TINY.replace("mainCRTStartup", "start"), encoding="utf-8")
    run_tool(["clang", "--target=x86_64-w64-mingw32", "-g", "-gcodeview", "-c", "gnu.c", "-o", "gnu.o"], room)
    run_tool([LINKER, "--pdb=gnu.pdb", "-e", "start", "-o", "gnu.exe", "gnu.o"], room)
    return room / "gnu.pdb"


def named_streams(room, sizes):
    """The flags that put a named stream of each size into a file, and one that is a table of moved addresses."""
    streams = {f"bytes_{size}": random.Random(size).randbytes(size) for size in sizes}
    streams["omap"] = omap_bytes(OMAP)
    for name, stream in streams.items():
        (room / name).write_bytes(stream)
    return [f"/pdbstream:{name}={name}" for name in streams]


def offers(tally, flag):
    """Whether LLD knows a flag. Older ones lack some, and what is to be checked by them then fails."""
    is_known = flag in run_tool(["lld-link", "/?"])
    tally.check(is_known, f"{tool('lld-link')} is too old, it does not know {flag}")
    return is_known


def make_pair(room, flags=()):
    """A file of two sources in C, of which one calls the other."""
    return make_pdb(room, "pair", {"caller.c": CALLER, "called.c": CALLED}, flags)
