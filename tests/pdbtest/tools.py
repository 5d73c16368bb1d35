"""The commands that tests run, and the Debian packages that have them."""

import functools
import os
import re
import shutil
import subprocess
from pathlib import Path

from pdbtest.report import Trouble

SECONDS = 120  # for one run of a tool
LINKER = "x86_64-w64-mingw32-ld"  # GNU ld for Windows
NEWER = "llvm-pdbutil-19"
WINE = "/usr/lib/wine"  # where Debian has what /usr/bin lacks of it
WEBSOCKETS = "/usr/lib/python3/dist-packages/websockets"
LIBRARY = "/usr/lib/llvm-14/include/c++/v1/vector"  # of the headers of libc++
CROSS = "/usr/aarch64-linux-gnu/lib/libc.so"  # the C library that programs for ARM are linked with

# those that only bench/run needs, and all
BENCH_PACKAGES = {"llvm-config": "llvm-dev"}
SANITIZERS = "libclang-rt-dev"
PACKAGES = {
    "clang": "clang",
    "lld-link": "lld",
    "llvm-pdbutil": "llvm",
    NEWER: "llvm-19",
    "llvm-readobj": "llvm",
    LINKER: "binutils-mingw-w64-x86-64",
    LIBRARY: "libc++-14-dev",
    "cc": "gcc",
    "c++": "g++",
    "objcopy": "binutils",
    "pkg-config": "pkg-config",
    "strace": "strace",
    "valgrind": "valgrind",
    "cargo": "cargo",
    "mypy": "mypy",
    "wine64": "wine64",
    "x86_64-w64-mingw32-gcc": "gcc-mingw-w64-x86-64",
    "qemu-aarch64": "qemu-user",
    "aarch64-linux-gnu-gcc": "gcc-aarch64-linux-gnu",
    CROSS: "libc6-dev-arm64-cross",
    "node": "nodejs",
    "chromium": "chromium",
    "chromedriver": "chromium-driver",
    "firefox-esr": "firefox-esr",
    WEBSOCKETS: "python3-websockets",
    "wasm-ld": "lld",
    **BENCH_PACKAGES,
}


def path_of(name):
    """The path of a command, also where its name has a version, as in lld-link-14; None if there is none."""
    if name.startswith("/"):
        return name if Path(name).exists() else None
    versions = [
        (int(match[1]), path)
        for folder in os.get_exec_path()
        for path in Path(folder).glob(f"{name}-*")
        if (match := re.fullmatch(re.escape(name) + r"-(\d+)", path.name)) and os.access(path, os.X_OK)
    ]
    return shutil.which(name) or shutil.which(name, path=WINE) or (str(max(versions)[1]) if versions else None)


def has_sanitizers():
    """Whether Clang finds its fuzzer and its sanitizers, which are in a package of their own."""
    clang = path_of("clang")
    if not clang:
        return False
    ran = subprocess.run([clang, "-print-resource-dir"], capture_output=True, text=True, timeout=SECONDS)
    return any(Path(ran.stdout.strip(), "lib").glob("*/libclang_rt.fuzzer*x86_64*"))


@functools.cache
def tool(name):
    """The path of a command that has to be there."""
    path = path_of(name)
    if not path:
        setup = "tests/setup --bench" if name in BENCH_PACKAGES else "tests/setup"
        raise Trouble(f"{name} is missing: the Debian package {PACKAGES[name]} has it, and {setup} installs it")
    return path


def run_tool(words, folder=None, seconds=SECONDS):
    """Runs a command that must not fail, and returns what it prints. A tool is named without its path."""
    words = [tool(words[0]) if words[0] in PACKAGES else words[0], *words[1:]]
    how = {"stdin": subprocess.DEVNULL, "stdout": subprocess.PIPE, "stderr": subprocess.STDOUT}
    text = {"encoding": "utf-8", "errors": "replace"}
    try:
        ran = subprocess.run(words, cwd=folder, timeout=seconds, **text, **how)
    except (OSError, subprocess.TimeoutExpired) as error:
        raise Trouble(f"{words[0]} did not run: {error}") from error
    if ran.returncode:
        said = " | ".join(ran.stdout.strip().splitlines())[-400:]
        raise Trouble(f"'{' '.join(map(str, words))}' ended with status {ran.returncode}: {said}")
    return ran.stdout
