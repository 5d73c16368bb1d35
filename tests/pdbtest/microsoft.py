"""Files that Microsoft's tools made, which are among the tests of LLVM 19, and where tests/setup keeps them.

Debian's source package has 37 files whose names end in .pdb. Two are one stub of 29 bytes. Of the other 35 two are
copies, so 33 differ. Two of these are LLD's; the others are Microsoft's.
"""

import os
import subprocess
import tarfile
import tempfile
from dataclasses import dataclass
from pathlib import Path

from pdbtest.report import Trouble

PACKAGE = "llvm-toolchain-19"
CACHE = Path(os.environ.get("XDG_CACHE_HOME") or Path.home() / ".cache") / "pdb_container" / PACKAGE
SUITES = ["debian bookworm", "debian bookworm-updates", "debian-security bookworm-security"]
KEYS = "/usr/share/keyrings/debian-archive-keyring.gpg"

PDB = "llvm/test/DebugInfo/PDB/Inputs"
PDBUTIL = "llvm/test/tools/llvm-pdbutil"
INPUTS = f"{PDBUTIL}/Inputs"
SYMBOLIZER = "llvm/test/tools/llvm-symbolizer/pdb/Inputs"
LLDB = "lldb/unittests/SymbolFile/PDB/Inputs"
UNIT = "llvm/unittests/DebugInfo"


@dataclass(frozen=True)
class File:
    """A file, and what is there of the same program: its image, its source, and a test that lists its layouts."""

    path: str
    image: str | None = None
    source: str | None = None
    layouts: str | None = None

    @property
    def name(self):
        """The name without its ending."""
        return Path(self.path).stem

    @property
    def paths(self):
        """All of these that are there."""
        return [path for path in (self.path, self.image, self.source, self.layouts) if path]


def with_source(folder, name, **others):
    """A file with the source of the same name beside it."""
    return File(f"{folder}/{name}.pdb", source=f"{folder}/{name}.cpp", **others)


FILES = [
    File(f"{PDB}/big-read.pdb", image=f"{SYMBOLIZER}/test.exe"),
    File(f"{PDB}/empty.pdb"),
    with_source(PDB, "every-array"),
    with_source(PDB, "every-class"),
    File(f"{PDB}/every-enum.pdb"),
    with_source(PDB, "every-function"),
    File(f"{PDB}/every-pointer.pdb"),
    File(f"{PDB}/every-type.pdb"),
    File(f"{PDB}/global-name-lookup.pdb"),
    File(f"{PDB}/pdbdump-globals-empty.pdb"),
    with_source(PDB, "symbolformat"),
    with_source(INPUTS, "ClassLayoutTest", layouts=f"{PDBUTIL}/class-layout.test"),
    with_source(INPUTS, "ComplexPaddingTest", layouts=f"{PDBUTIL}/complex-padding-graphical.test"),
    File(f"{INPUTS}/FPOTest.pdb"),
    File(f"{INPUTS}/FilterTest.pdb"),
    File(f"{INPUTS}/InjectedSource.pdb"),
    File(f"{INPUTS}/LoadAddressTest.pdb"),
    with_source(INPUTS, "PrettyFuncDumperTest"),
    with_source(INPUTS, "SimplePaddingTest", layouts=f"{PDBUTIL}/simple-padding-graphical.test"),
    File(f"{INPUTS}/Stripped.pdb"),
    with_source(INPUTS, "TypeQualifiersTest"),
    File(f"{INPUTS}/TypeServerTest.pdb"),
    File(f"{INPUTS}/UsingNamespaceTest.pdb"),
    File(f"{INPUTS}/dotnet_contents_compressed.pdb"),
    File(f"{INPUTS}/dotnet_contents_uncompressed.pdb"),
    File(f"{INPUTS}/dotnet_hashonly.pdb"),
    File(f"{SYMBOLIZER}/test-columns.pdb", image=f"{SYMBOLIZER}/test-columns.exe"),
    File(f"{UNIT}/LogicalView/Inputs/test-codeview-pdb-msvc-.pdb"),
    File(f"{UNIT}/PDB/Inputs/SimpleTest.pdb", image=f"{UNIT}/PDB/Inputs/SimpleTest.exe"),
    File("lld/test/COFF/Inputs/pdb-diff-cl.pdb"),
    File("lldb/test/Shell/Minidump/Windows/Sigsegv/Inputs/sigsegv.pdb"),
    File(f"{LLDB}/test-pdb.pdb", image=f"{LLDB}/test-pdb.exe"),
    with_source(LLDB, "test-pdb-types", image=f"{LLDB}/test-pdb-types.exe"),
]
STUB = File(f"{PDB}/bad-block-size.pdb")  # 29 bytes that name the format, with no header behind them
BY_LLD = {"every-array", "test-columns"}


def kept(path):
    """Where a file is kept."""
    return CACHE / "files" / path


def missing():
    """The files that are not there."""
    return [path for file in [*FILES, STUB] for path in file.paths if not kept(path).is_file()]


def download():
    """Has apt fetch the source package, with lists of packages of its own, and returns its path."""
    CACHE.mkdir(parents=True, exist_ok=True)
    with tempfile.TemporaryDirectory() as room:
        sources, lists = Path(room, "sources.list"), Path(room, "lists")
        Path(lists, "partial").mkdir(parents=True)
        lines = (f"deb-src [signed-by={KEYS}] http://deb.debian.org/{suite} main\n" for suite in SUITES)
        sources.write_text("".join(lines))
        words = {
            "Dir::Etc::SourceList": sources, "Dir::Etc::SourceParts": "/dev/null", "Dir::State::Lists": lists,
            "Dir::Cache::pkgcache": "", "Dir::Cache::srcpkgcache": "", "APT::Sandbox::User": "root",
        }  # fmt: skip
        options = [word for name, value in words.items() for word in ("-o", f"{name}={value}")]
        for command in (["update"], ["source", "--download-only", "--tar-only", PACKAGE]):
            status = subprocess.run(["apt-get", *options, "-q", *command], cwd=CACHE).returncode
            if status:
                raise Trouble(f"apt-get {command[0]} ended with status {status}")
    return next(CACHE.glob(f"{PACKAGE}_*.orig.tar.xz"))


def fetch():
    """Fetches the files that are not there. The archive stays, so that it is fetched once."""
    wanted = set(missing())
    if not wanted:
        return
    print(f"tests/setup: {len(wanted)} files of {PACKAGE}, 160 MB, to {CACHE}", flush=True)
    with tarfile.open(download(), "r|xz") as archive:
        for member in archive:
            path = member.name.partition("/")[2]
            if path in wanted and member.isfile():
                kept(path).parent.mkdir(parents=True, exist_ok=True)
                whole = kept(path).with_suffix(".part")
                whole.write_bytes(archive.extractfile(member).read())
                whole.rename(kept(path))
