"""How much memory a program takes, with a limit to its stack."""

import os
import subprocess
import sys

STACK = 1 << 20  # bytes of stack that a program may take

# A process of its own, since the memory of the one that starts a program counts as the program's.
MEASURE = f"""
import os, resource, sys
resource.setrlimit(resource.RLIMIT_STACK, ({STACK}, {STACK}))
child = os.posix_spawn(sys.argv[1], sys.argv[1:], {{}})
_, status, used = os.wait4(child, 0)
print(used.ru_maxrss * 1024, used.ru_utime + used.ru_stime, file=sys.stderr)
sys.exit(os.waitstatus_to_exitcode(status))
"""


def used(words, given=None, output=subprocess.PIPE):
    """What a command prints, given a file on standard input, the bytes of memory that it takes at most, and the seconds
    of the processor."""
    measured = [sys.executable, "-c", MEASURE, *map(str, words)]
    with open(given or os.devnull, "rb") as data:
        done = subprocess.run(measured, stdin=data, stdout=output, stderr=subprocess.PIPE, text=True, check=False)
    *told, numbers = done.stderr.splitlines()
    memory, seconds = numbers.split()
    return done.stdout, "\n".join(told), int(memory), float(seconds)


def peak(words, given=None):
    """The same without the seconds."""
    return used(words, given)[:3]


def by_turns(*commands, turns=7):
    """The fewest seconds of the processor that each command takes, of some calls by turns, whose output goes nowhere.
    Other tests run beside this one, so the time of a clock, and that of a single call, say little."""
    taken = [[used(words, output=subprocess.DEVNULL)[3] for words in commands] for _ in range(turns)]
    return [min(seconds) for seconds in zip(*taken)]
