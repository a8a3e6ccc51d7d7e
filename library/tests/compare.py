#!/usr/bin/env python3
"""Draws scripts by chance, makes their commands through the library, a thread for each domain, and has the replies judged:
`compare.py COUNT COMMANDS [SEED [DOMAINS]]`, with so many commands of each domain. Of one domain they are those that `camlheap run`
prints of the script; of several `history_check` looks for a legal history of them. Ends with 1 where some are not as they should be."""
import os
import random
import subprocess
import sys
import threading
import time

TOP = os.path.dirname(os.path.dirname(os.path.dirname(os.path.abspath(__file__))))
sys.path.insert(0, f"{TOP}/library/python")
import camlheap

PROGRAM = os.environ.get("PROGRAM", f"{TOP}/camlheap")
JUDGE = os.environ.get("JUDGE", f"{TOP}/history_check")
MINOR, POOLS = 4096, 160
MOST = 2**62


def command(draw):
    """A word and its numbers."""
    register, field = lambda: draw.randrange(16), lambda: draw.randrange(5)
    word = draw.choice([*camlheap.FORMS, "alloc", "alloc", "store", "load", "set_key", "get_key", "drop"])
    ranges = {"tag": lambda: draw.randrange(251, 256) if word == "raw" else draw.randrange(246), "value": lambda: draw.randrange(-MOST, MOST)}
    ranges["number"] = lambda: draw.randrange(100)
    if word in ("alloc", "allocmaj", "raw"):
        ranges["n"] = lambda: draw.choice([1, 2, 3, 4, 30, 1022])
    elif word == "ephe":
        ranges["n"] = lambda: draw.randrange(1, 9)
    else:
        ranges["n"] = field
    return word, [ranges.get(name, register)() for name in camlheap.FORMS[word].split()]


def script(traces):
    """The text of these traces."""
    line = lambda word, numbers: f"{word} {' '.join(map(str, numbers))}".rstrip() + "\n"
    return "heap 2\n" + "".join(f"domain {at}\n" + "".join(line(*it) for it in trace) for at, trace in enumerate(traces))


def output(lines):
    """The text of what these domains have replied."""
    return "".join(f"domain {at}\n" + "".join(f"{it}\n" for it in its) for at, its in enumerate(lines))


def trace_of(domain, commands, lines):
    """Makes the commands and ends the trace. The replies go to `lines`, with those of the finalisers that ran before each."""
    told = []
    for word, numbers in commands:
        reply = domain.perform(word, *numbers)
        told = domain.ran()
        lines += [*map(str, told), str(reply)]
    domain.close()
    while not domain.turn():
        time.sleep(0)
    lines += map(str, domain.ran()[len(told) :])
    domain.free()


def made(traces):
    """What the domains reply, in a thread each."""
    most = max(map(len, traces))
    domains = camlheap.start(len(traces), MINOR, POOLS, most, most)
    lines = [[] for _ in traces]
    threads = [threading.Thread(target=trace_of, args=it) for it in zip(domains, traces, lines)]
    for it in threads:
        it.start()
    for it in threads:
        it.join()
    return lines


def is_right(traces, lines):
    """Whether the program prints these lines of one domain, or the judge finds a legal history of those of several."""
    sizes = ["--domains", str(len(traces)), "--minor", str(MINOR), "--pools", str(POOLS)]
    if len(traces) == 1:
        ran = subprocess.run([PROGRAM, "run", *sizes], input=script(traces), capture_output=True, text=True, check=True)
        return ran.stdout == output(lines)
    judged = subprocess.run([JUDGE, *sizes], input=f"{script(traces)}---\n{output(lines)}", capture_output=True, text=True)
    return judged.returncode == 0


def main(count, length, seed=1, domains=1):
    for at in range(count):
        draw = random.Random(seed * 1000003 + at)
        traces = [[command(draw) for _ in range(length)] for _ in range(domains)]
        lines = made(traces)
        if not is_right(traces, lines):
            sys.exit(f"compare: script {at} of seed {seed}:\n{script(traces)}---\n{output(lines)}")
    print(f"{count * length * domains} commands of {count} scripts: the replies are right")


if __name__ == "__main__":
    main(*map(int, sys.argv[1:]))
