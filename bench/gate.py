#!/usr/bin/env python3
"""Runs the gate from nothing, samples each process of the prover every second, and prints the gate's CPU seconds crate by crate as a
table in Markdown, when the library or program of each crate was proved, and the longest chain of crates of which each stands on the one
before. `bench/gate.py FILE` writes what the gate says into FILE and ends with the gate's status. `bench/gate.py alone CRATE..` proves
these crates one after another, each alone with four jobs, over what `tools/prove.py` keeps, and prints how long each took."""
import os
import re
import subprocess
import sys
import time

sys.dont_write_bytecode = True
sys.path.insert(0, os.path.join(os.path.dirname(os.path.dirname(os.path.abspath(__file__))), "tools"))
import prove

TICKS = os.sysconf("SC_CLK_TCK")
COLUMNS = ["proof", "tests", "first edit or seed", "other edits"]


class Prover:
    """One process of the prover: its crate, what it is for, and the CPU seconds that it has taken so far."""

    def __init__(self, words, folder, edits_seen):
        self.crate = words[words.index("--crate-name") + 1]
        self.seconds = self.seen = 0.0
        kept = words[words.index("--incremental") + 1] if "--incremental" in words else ""
        if "/rt-edit" in folder:
            key = (self.crate, kept or folder)
            self.what = COLUMNS[3] if key in edits_seen else COLUMNS[2]
            edits_seen.add(key)
        else:
            self.what = COLUMNS[1] if "--test" in words else COLUMNS[0]


def text_of(path):
    try:
        with open(path, "rb") as it:
            return it.read().decode(errors="replace")
    except OSError:
        return ""


def sample(found, edits_seen, gate):
    """Adds the provers of the gate that run now to those found, by process number and start."""
    for pid in filter(str.isdigit, os.listdir("/proc")):
        words = text_of(f"/proc/{pid}/cmdline").split("\0")
        if not words[0].endswith("/rattle") or "--crate-name" not in words:
            continue
        numbers = text_of(f"/proc/{pid}/stat").rpartition(")")[2].split()
        if len(numbers) < 20 or numbers[1] != str(gate):
            continue
        key = (pid, numbers[19])
        if key not in found:
            try:
                folder = os.readlink(f"/proc/{pid}/cwd")
            except OSError:
                continue
            found[key] = Prover(words, folder, edits_seen)
        found[key].seconds = (int(numbers[11]) + int(numbers[12])) / TICKS
        found[key].seen = time.time()


def table(found, refused, begun):
    """Returns the lines of the table, the dearest crate first."""
    sums, ends = {}, {}
    for it in found.values():
        row = sums.setdefault(it.crate, dict.fromkeys(COLUMNS, 0.0))
        row[it.what] += it.seconds
        if it.what == COLUMNS[0]:
            ends[it.crate] = max(it.seen, ends.get(it.crate, 0))
    heads = [*COLUMNS, "wrong bodies", "in all", "proved after"]
    lines = ["| crate | " + " | ".join(heads) + " |", "|---|" + "---|" * len(heads)]
    shown = lambda seconds: f"{seconds:.0f}" if seconds >= 0.5 else ""
    for crate, row in sorted(sums.items(), key=lambda it: -sum(it[1].values())):
        cells = [shown(row[column]) for column in COLUMNS]
        after = round(ends[crate] - begun) if crate in ends else 0
        end = f"{after // 60}:{after % 60:02}" if after else ""
        lines.append(f"| `{crate}` | " + " | ".join(cells) + f" | {refused.get(crate, '')} | {sum(row.values()):.0f} | {end} |")
    totals = [sum(row[column] for row in sums.values()) for column in COLUMNS]
    lines.append("| all | " + " | ".join(map(shown, totals)) + f" | {sum(refused.values())} | {sum(totals):.0f} | |")
    return lines


def longest_chain(crates, seconds):
    """Returns what the longest chain takes, and its crates, the lowest first. The last may be one of tests."""
    found = {}

    def chain(crate):
        if crate not in found:
            below = max((chain(it) for it in crate.deps), key=lambda it: it[0], default=(0, []))
            found[crate] = (below[0] + seconds.get(crate.name, 0), [*below[1], crate.name])
        return found[crate]

    return max((chain(it) for it in crates), key=lambda it: it[0])


def alone(top, names):
    """Proves each of the crates alone, and prints the seconds that each took."""
    prover, total = prove.Prover(), 0
    crates = prove.repository(top, prover.kit)
    for name in names:
        words = [*prover.words(crates[name], prove.JOBS), *(["--test"] if name.startswith("test_") else [])]
        begun = time.time()
        said = subprocess.run([prover.rattle, "check", *words], cwd=crates[name].folder, stdout=subprocess.PIPE, stderr=subprocess.STDOUT, text=True)
        if said.returncode:
            sys.exit(said.stdout)
        total += time.time() - begun
        print(f"{name} {time.time() - begun:.0f} s", flush=True)
    print(f"in all {total:.0f} s")


def gate_from_nothing(top, said):
    """Starts the gate. A kit whose gate keeps what it proved has a flag for one from nothing; another refuses the flag at once, and keeps nothing."""
    start = lambda *flags: subprocess.Popen(["rt", "ci", *flags], cwd=top, stdout=said, stderr=subprocess.STDOUT)
    gate = start("--anew")
    try:
        is_refused = gate.wait(5) == 2
    except subprocess.TimeoutExpired:
        is_refused = False
    if not is_refused:
        return gate
    said.seek(0)
    said.truncate()
    return start()


def main():
    top = subprocess.check_output(["git", "rev-parse", "--show-toplevel"], text=True).strip()
    if sys.argv[1:2] == ["alone"]:
        alone(top, sys.argv[2:])
        return
    if len(sys.argv) != 2:
        sys.exit("usage: bench/gate.py FILE | alone CRATE..")
    begun, found, edits_seen = time.time(), {}, set()
    with open(sys.argv[1], "w", encoding="utf-8") as said:
        gate = gate_from_nothing(top, said)
        while gate.poll() is None:
            sample(found, edits_seen, gate.pid)
            time.sleep(1)
    text = text_of(sys.argv[1])
    refused = {}
    for crate in re.findall(r"^rt: must-fail (\w+)/\S+: refused", text, re.M):
        refused[crate] = refused.get(crate, 0) + 1
    used = os.times()
    commit = subprocess.check_output(["git", "-C", top, "rev-parse", "--short=12", "HEAD"], text=True).strip()
    print(*table(found, refused, begun), sep="\n")
    proofs = {}
    for it in found.values():
        if it.what == COLUMNS[it.crate.startswith("test_")]:
            proofs[it.crate] = proofs.get(it.crate, 0) + it.seconds
    seconds, chain = longest_chain(prove.repository(top, prove.Prover().kit).values(), proofs)
    print(f"\nlongest chain, {seconds:.0f} CPU s: {' '.join(chain)}")
    print(f"\n{text.strip().splitlines()[-1]}; commit {commit}; {time.time() - begun:.0f} s on {os.cpu_count()} processors, ")
    print(f"{used.children_user + used.children_system:.0f} CPU s in all, by the system's own count.")
    sys.exit(gate.returncode)


if __name__ == "__main__":
    main()
