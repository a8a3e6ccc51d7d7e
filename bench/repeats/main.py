"""Repeats and judges outputs of random scripts, as `bench/repeats.sh` says.

usage: main.py CAMLHEAP CHECK schedules|outputs FIRST COUNT      CHECK is the launcher history_check"""
import random
import subprocess
import sys

SIZES = ["--minor", "4096", "--pools", "128"]
PLAIN = ["int", "alloc", "load", "load", "store", "store", "cas", "move", "drop", "raw"]


def command(dice, registers):
    """A command of versions 2 and 3 that needs no collection."""
    r = lambda: dice.randrange(registers)
    word = dice.choice(PLAIN)
    if word == "int":
        return f"int {r()} {dice.randrange(3)}"
    if word in ("alloc", "raw"):
        return f"{word} {r()} {252 * (word == 'raw')} {dice.randrange(1, 4)}"
    if word == "load":
        return f"load {r()} {dice.choice([0, 0, r()])} {dice.randrange(2)}"
    if word == "store":
        return f"store {dice.choice([0, 0, r()])} {dice.randrange(2)} {r()}"
    if word == "cas":
        return f"cas 0 {dice.randrange(2)} {r()} {r()}"
    return f"move {r()} {r()}" if word == "move" else f"drop {r()}"


def weak_command(dice, registers):
    """A command that shows what collections do."""
    r = lambda: dice.randrange(1, registers)
    word = dice.choice(["ephe", "set_key", "set_data", "check_key", "check_data", "get_key", "finalise", "finalise_last", "full_major", "major"])
    if word == "ephe":
        return f"ephe {r()} 1"
    if word in ("set_key", "get_key"):
        return f"set_key {r()} 0 {r()}" if word == "set_key" else f"get_key {r()} {r()} 0"
    if word == "check_key":
        return f"check_key {r()} 0"
    if word == "set_data":
        return f"set_data {r()} {r()}"
    if word == "check_data":
        return f"check_data {r()}"
    if word == "finalise":
        return f"finalise {r()} {dice.randrange(9)} {r()}"
    if word == "finalise_last":
        return f"finalise_last {r()} {dice.randrange(9)}"
    return word


def section(dice, length, weak):
    registers = 5
    return [weak_command(dice, registers) if dice.random() < weak else command(dice, registers) for _ in range(dice.randrange(1, length))]


def plain_script(dice, domains, weak):
    lines = ["heap 2"]
    for d in range(domains):
        lines += [f"domain {d}"] + section(dice, 9, weak)
    return "\n".join(lines) + "\n"


def oldest_script(dice, domains, weak):
    """One of version 1, which has no raw blocks and no `cas`."""
    lines = plain_script(dice, domains, weak).split("\n")[1:]
    return "\n".join(["heap 1"] + [line for line in lines if line.split(" ")[0] not in ("raw", "cas")])


def spawning_script(dice, domains):
    """Section 0 spawns some of the others and joins some of those; each tells what it was given."""
    lines = ["heap 3", "domain 0"] + section(dice, 4, 0)
    for d in range(1, domains):
        lines += [f"spawn {d} {dice.randrange(1, 5)}"] + section(dice, 3, 0)
    for d in range(1, domains):
        if dice.random() < 0.8:
            lines += [f"join {dice.randrange(1, 5)} {d}"] + section(dice, 3, 0.1)
    for d in range(1, domains):
        lines += [f"domain {d}"] + section(dice, 3, 0)
        if dice.random() < 0.7:
            lines += [f"argument {dice.randrange(1, 5)}", f"store {dice.randrange(1, 5)} 0 1"]
        if dice.random() < 0.7:
            lines += [f"result {dice.randrange(1, 5)}"]
    return "\n".join(lines) + "\n"


def of(domains):
    """The words for a heap of so many domains."""
    return ["--domains", str(domains), *SIZES]


def printed(heap, domains, script):
    """What a run prints. The script has no fault."""
    status, output = piped([heap, "run", *of(domains)], script)
    if status:
        sys.exit(f"camlheap ends with {status} on\n{script}")
    return output


def piped(words, text):
    done = subprocess.run(words, input=text.encode(), stdout=subprocess.PIPE, stderr=subprocess.PIPE, check=False)
    return done.returncode, done.stdout.decode()


def changed(line):
    first = line.split(" ")[0]
    return {"yes": "no", "no": "yes", "none": "int 0", "int": "int 7", "blk": "none", "live": "live 1 19"}.get(first)


def spoilt(dice, output):
    lines = output.split("\n")[:-1]
    places = [i for i, line in enumerate(lines) if changed(line) not in (None, line)]
    if not places:
        return None
    at = dice.choice(places)
    return "\n".join(lines[:at] + [changed(lines[at])] + lines[at + 1:]) + "\n"


def schedules(heap, check, first, count):
    again = without = wrong = 0
    for seed in range(first, first + count):
        dice = random.Random(seed)
        domains = dice.randrange(2, 5)
        script = plain_script(dice, domains, dice.choice([0, 0.1]))
        script = script.replace("\nmajor\n", "\npoll\n")
        output = printed(heap, domains, script)
        status, schedule = piped([check, "--schedule", *of(domains)], script + "---\n" + output)
        if status == 8:
            without += 1
        elif status == 0 and piped([heap, "replay", *of(domains)], schedule + script)[1] == output:
            again += 1
        else:
            wrong += 1
            print(f"seed {seed}: status {status}\n{script}---\n{output}", flush=True)
    print(f"{again} outputs printed again by a replay, {without} with no schedule, {wrong} not as they should be")
    return wrong


def outputs(heap, check, first, count):
    statuses, spoilt_statuses = {}, {}
    wrong = 0
    for seed in range(first, first + count):
        dice = random.Random(seed)
        domains = dice.randrange(1, 4)
        if seed % 4 == 0:
            script = oldest_script(dice, domains, 0.3)
        else:
            script = plain_script(dice, domains, 0.3) if seed % 4 == 2 else spawning_script(dice, domains)
        output = printed(heap, domains, script)
        words = [check, *of(domains), "--states", "200000"]
        status, _ = piped(words, script + "---\n" + output)
        statuses[status] = statuses.get(status, 0) + 1
        if status != 0:
            wrong += 1
            print(f"seed {seed}: status {status}\n{script}---\n{output}", flush=True)
        other = spoilt(dice, output) if seed % 10 == 0 else None
        if other:
            status, _ = piped(words, script + "---\n" + other)
            spoilt_statuses[status] = spoilt_statuses.get(status, 0) + 1
            if status == 0:
                print(f"changed, seed {seed}: legal\n{script}---\n{other}", flush=True)
    print("as printed, by status:", statuses, "with one reply changed:", spoilt_statuses)
    return wrong


if __name__ == "__main__":
    heap, check, what, first, count = sys.argv[1:]
    sys.exit(1 if {"schedules": schedules, "outputs": outputs}[what](heap, check, int(first), int(count)) else 0)
