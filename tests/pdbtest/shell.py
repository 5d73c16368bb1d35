"""Commands as a user gives them, in the repository or in a copy of it."""

import os
import shutil
import subprocess
import time
from pathlib import Path

from pdbtest.programs import ROOT

SECONDS = 600  # for one command
SOON = 1.0  # seconds, for the first answers


def run(words, folder, given=None, most=SECONDS, **env):
    """What a command gives, and how long it took."""
    how = {"stdout": subprocess.PIPE, "stderr": subprocess.PIPE, "timeout": most, "text": True, "errors": "replace"}
    started = time.monotonic()
    with open(given or os.devnull, "rb") as data:
        try:
            ran = subprocess.run(list(map(str, words)), cwd=folder, stdin=data, env={**os.environ, **env}, **how)
        except OSError as error:
            ran = subprocess.CompletedProcess(words, 127, "", f"{error}\n")
    ran.seconds = time.monotonic() - started
    return ran


def answers(tally, what, words, folder, given=None, soon=False, **env):
    """A command that must succeed, and say nothing on standard error: what it prints."""
    ran = run(words, folder, given, **env)
    tally.check(ran.returncode == 0 and not ran.stderr, f"{what}: status {ran.returncode}: {ran.stderr[-600:]}")
    if soon:
        tally.check(ran.seconds <= SOON, f"{what}: took {ran.seconds:.2f} s")
    return ran.stdout


def fails(tally, what, status, said, words, folder, given=None, **env):
    """A command that must fail with a status and one line on standard error, in which a text is."""
    ran = run(words, folder, given, **env)
    is_well = ran.returncode == status and ran.stderr.count("\n") == 1 and said in ran.stderr and not ran.stdout
    tally.check(is_well, f"{what}: status {ran.returncode}: {ran.stdout[:200]}{ran.stderr[-600:]}")


def copy_repository(to):
    """The files that git has, or would have, and no others."""
    listed = run(["git", "ls-files", "-coz", "--exclude-standard"], ROOT).stdout.split("\0")
    for name in filter(None, listed):
        if os.path.lexists(ROOT / name):
            (to / name).parent.mkdir(parents=True, exist_ok=True)
            shutil.copy2(ROOT / name, to / name, follow_symlinks=False)
    return to


def path_without_rt(room):
    """The folders of the PATH; one that has rt is replaced by links to all else that it has."""
    folders = []
    for at, folder in enumerate(os.get_exec_path()):
        if Path(folder, "rt").exists():
            links = room / f"path-{at}"
            links.mkdir()
            for path in Path(folder).iterdir():
                if path.name != "rt":
                    (links / path.name).symlink_to(path)
            folder = str(links)
        folders.append(folder)
    return ":".join(folders)
