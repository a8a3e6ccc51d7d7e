#!/usr/bin/env python3
"""Tests of OCaml's own suite told as scripts, where these are too long for examples/ocaml.

    bench/ocaml5/told.py TEST                 writes the script
    bench/ocaml5/told.py TEST PLAYER [WORDS]  plays it by a player (docs/CONFORM.md), and compares each reply that the test asks for
    bench/ocaml5/told.py list                 the names of tests

Each script's replies are worked out here, from the test, by plain sets and numbers. Finalisers are compared by how often each ran. The
reply of `full_major` is compared as far as it is `live`. Status 0 where all is as the test asks, 1 where it isn't."""
import collections
import random
import subprocess
import sys

# Fields of a block that keeps others.
WIDE = 126


class Domain:
    """The lines of a domain, each with the reply that is sure, or None, and how often each finaliser runs."""

    def __init__(self):
        self.lines, self.replies, self.ran = [], [], collections.Counter()

    def add(self, line, reply="ok"):
        self.lines.append(line)
        self.replies.append(reply)

    def collect(self, times=1):
        for _ in range(times):
            self.add("full_major", "live")


class Shelf:
    """Places for so many blocks, in blocks of 126 fields that the block in a register leads to. It uses register 4."""

    def __init__(self, domain, register, places):
        self.domain, self.register = domain, register
        domain.add(f"allocmaj {register} 0 {WIDE}", None)
        for at in range((places + WIDE - 1) // WIDE):
            domain.add(f"allocmaj 4 0 {WIDE}", None)
            domain.add(f"store {register} {at} 4")

    def reach(self, place):
        self.domain.add(f"load 4 {self.register} {place // WIDE}", None)
        return place % WIDE

    def put(self, place, register):
        field = self.reach(place)
        self.domain.add(f"store 4 {field} {register}")

    def get(self, place, register):
        field = self.reach(place)
        self.domain.add(f"load {register} 4 {field}", None)


def ephetest3(last):
    """The memo of Collatz: bindings of boxed numbers to boxed numbers, of which the last so many that were asked for are kept."""
    domain, number = Domain(), 1000
    follow = lambda x: x // 2 if x % 2 == 0 else 3 * x + 1
    kept, values, bound = {}, {}, {}
    blocks, weak = Shelf(domain, 5, 2400), Shelf(domain, 6, 2400)

    def block(x):
        if x not in values:
            values[x] = len(values)
            domain.add("alloc 1 0 1", None)
            domain.add(f"int 2 {x}")
            domain.add("store 1 0 2")
            blocks.put(values[x], 1)

    for asked in range(number + 1):
        block(asked)
        kept[asked % last] = x = asked
        while x not in bound:
            bound[x] = follow(x)
            block(bound[x])
            domain.add("ephe 3 1", None)
            blocks.get(values[x], 1)
            domain.add("set_key 3 0 1")
            blocks.get(values[bound[x]], 1)
            domain.add("set_data 3 1")
            weak.put(values[x], 3)
            x = bound[x]
    alive = set()
    for x in kept.values():
        while x not in alive:
            alive.add(x)
            x = bound[x]
    domain.add("int 3 0")
    for x in values:
        if x not in kept.values():
            blocks.put(values[x], 3)
    domain.add("drop 1")
    domain.collect()
    for x in bound:
        weak.get(values[x], 1)
        domain.add("check_key 1 0", "yes" if x in alive else "no")
        domain.add("check_data 1", "yes" if x in alive else "no")
    return 1, [domain], f"{len(alive)} bindings are left"


def weaktest(rounds=30, bunch=400):
    """Weak pointers to the cells of lists: behind a collection those of the list before are empty, and those of the last are full."""
    domain = Domain()
    cells, weak = Shelf(domain, 5, bunch), Shelf(domain, 6, bunch)
    for _ in range(rounds):
        for place in range(bunch):
            domain.add("alloc 1 0 1", None)
            cells.put(place, 1)
            domain.add("ephe 2 1", None)
            domain.add("set_key 2 0 1")
            weak.put(place, 2)
        for place in range(bunch):
            weak.get(place, 2)
            domain.add("check_key 2 0", "yes")
        domain.add("int 3 0")
        domain.add("drop 1")
        for place in range(bunch):
            cells.put(place, 3)
        domain.collect()
        for place in range(bunch):
            weak.get(place, 2)
            domain.add("check_key 2 0", "no")
    return 1, [domain], f"{rounds * bunch} weak pointers"


def finaliser(blocks=10000, places=1000):
    """Finalisers of both kinds on blocks that an array keeps for a while, and on some that nothing keeps."""
    domain, kept = Domain(), {}
    array = Shelf(domain, 5, places)
    for number in range(blocks):
        kind = number % places
        domain.add("alloc 1 0 100", None)
        array.put(kind, 1)
        kept[kind] = number
        if kind in (2, 3):
            domain.add("alloc 1 0 1", None)
        if kind in (0, 2, 4):
            domain.add(f"finalise 1 {kind} 7")
        if kind in (1, 3, 4):
            domain.add(f"finalise_last 1 {kind}")
    # All but what the array keeps at the end die, and each finaliser of them runs.
    domain.add("drop 1")
    for _ in range(3):
        domain.collect()
        domain.add("drop 7")
    domain.add("poll")
    for kind, times in ((0, 9), (1, 9), (2, 10), (3, 10), (4, 18)):
        domain.ran[kind] = times
    return 1, [domain], f"{blocks} blocks"


def weaklifetime_par(steps=2000, rows=60):
    """Weak pointers that are filled and erased by chance, in four domains at once: one whose block is kept is full."""
    domains = []
    for number in range(4):
        dice, domain, kept = random.Random(f"weaklifetime {number}"), Domain(), set()
        present, weak = Shelf(domain, 5, rows), Shelf(domain, 6, rows)
        domain.add("int 3 0")
        for row in range(rows):
            domain.add("ephe 2 1", None)
            weak.put(row, 2)
        for step in range(steps):
            row = dice.randrange(rows)
            weak.get(row, 2)
            if row in kept:
                domain.add("check_key 2 0", "yes")
                if dice.randrange(10) == 0:
                    present.put(row, 3)
                    kept.remove(row)
            else:
                domain.add(f"alloc 1 0 {1 + dice.randrange(10)}", None)
                present.put(row, 1)
                domain.add("set_key 2 0 1")
                domain.add("drop 1")
                kept.add(row)
            if step % 400 == 399:
                domain.add(dice.choice(["minor", "major"]))
        domains.append(domain)
    return 1, domains, f"{4 * steps} steps"


def finaliser_handover(children=3, trees=60):
    """Domains register finalisers on blocks that nothing keeps, and end; their parent joins them and collects. Here none of the finalisers runs,
    while the test asks that all do, in another domain."""
    domains = [Domain() for _ in range(children + 1)]
    for number, child in enumerate(domains[1:], 1):
        domains[0].add(f"spawn {number} 1")
        for tree in range(trees):
            child.add("alloc 1 0 2", None)
            for field in (0, 1):
                child.add("alloc 2 0 2", None)
                child.add(f"store 1 {field} 2")
            child.add(f"finalise 1 {tree} 3")
        child.add("result 4", None)
    for number in range(1, children + 1):
        domains[0].add(f"join 2 {number}", None)
    domains[0].collect(2)
    return 3, domains, f"{children * trees} finalisers, of which none runs"


def atomics(children=4, times=250):
    """Domains add to one field by compare-and-set; their parent joins them. A domain that lost a race says `no` and adds no more."""
    domains = [Domain() for _ in range(children + 1)]
    for number in range(1, children + 1):
        domains[0].add(f"spawn {number} 1")
    for number in range(1, children + 1):
        domains[0].add(f"join 2 {number}", f"int {times}")
    for number, child in enumerate(domains[1:], 1):
        # Each adds to a field of its own, as each of OCaml's writes to places of its own.
        child.add("int 1 0")
        child.add(f"store 0 {number} 1")
        for value in range(times):
            child.add(f"int 1 {value}")
            child.add(f"int 2 {value + 1}")
            child.add(f"cas 0 {number} 1 2", "yes")
            child.add(f"cas 0 {number} 1 2", "no")
        child.add(f"load 3 0 {number}", f"int {times}")
        child.add("result 3")
    for number in range(1, children + 1):
        domains[0].add(f"load 3 0 {number}", f"int {times}")
    return 3, domains, f"{children * times} steps"


def join(children=7):
    """Each child writes a field and answers its number; the parent joins each twice. Collections come beside."""
    domains = [Domain() for _ in range(children + 1)]
    for number in range(1, children + 1):
        domains[0].add(f"int 1 {number}")
        domains[0].add(f"spawn {number} 1")
    for number in range(1, children + 1):
        for _ in range(2):
            domains[0].add(f"join 2 {number}", f"int {number}")
        domains[0].add(f"load 3 0 {number}", f"int {100 + number}")
    domains[0].collect(2)
    for number, child in enumerate(domains[1:], 1):
        child.add("argument 1", f"int {number}")
        child.add(f"int 2 {100 + number}")
        child.add(f"store 0 {number} 2")
        child.add("minor")
        child.add("result 1")
    return 3, domains, f"{children} children"


def spawn_burn(children=5, length=400):
    """Children make lists and are joined, one after the other or side by side, while two more ask for minor and major collections."""
    domains = [Domain() for _ in range(children + 3)]
    for number in (1, 2):
        domains[0].add(f"spawn {number} 1")
    for number, word in ((1, "minor"), (2, "major")):
        for _ in range(length // 4):
            for _ in range(4):
                domains[number].add("alloc 1 0 2", None)
            domains[number].add(word)
    for number in range(3, children + 3):
        domains[0].add(f"spawn {number} 1")
        if number % 2:
            domains[0].add(f"join 2 {number}", "int 42")
        child = domains[number]
        for _ in range(length):
            child.add("move 3 1")
            child.add("alloc 1 0 2", None)
            child.add("store 1 0 3" if child.lines.count("alloc 1 0 2") > 1 else "poll")
        child.add("int 4 42")
        child.add("result 4")
    for number in range(4, children + 3, 2):
        domains[0].add(f"join 2 {number}", "int 42")
    return 3, domains, f"{children} children"


TESTS = {
    "ephetest3_1": lambda: ephetest3(1000), "ephetest3_2": lambda: ephetest3(20), "ephetest3_3": lambda: ephetest3(10), "weaktest": weaktest,
    "finaliser": finaliser, "weaklifetime_par": weaklifetime_par, "finaliser_handover": finaliser_handover, "atomics": atomics, "join": join,
    "spawn_burn": spawn_burn,
}  # fmt: skip


def script_of(version, domains):
    lines = [f"heap {version}"]
    for number, domain in enumerate(domains):
        lines += [f"domain {number}", *domain.lines]
    return "".join(f"{line}\n" for line in lines)


def differs(number, domain, lines):
    """What isn't as the test asks in the lines of a domain."""
    replies = [line for line in lines if not line.startswith(("fin ", "last "))]
    if len(replies) != len(domain.lines):
        return [f"domain {number}: {len(replies)} replies to {len(domain.lines)} commands"]
    wrong = []
    for command, sure, reply in zip(domain.lines, domain.replies, replies):
        if sure and not (reply == sure or sure == "live" and reply.startswith("live")):
            wrong.append(f"domain {number}: {command}: {reply}, and the test asks for {sure}")
    ran = collections.Counter(int(line.split()[1]) for line in lines if line.startswith(("fin ", "last ")))
    if ran != domain.ran:
        wrong.append(f"domain {number}: finalisers ran {dict(ran)}, and the test asks for {dict(domain.ran)}")
    return wrong


def main(words):
    if words == ["list"]:
        print("\n".join(TESTS))
        return 0
    if not words or words[0] not in TESTS:
        print(__doc__, file=sys.stderr)
        return 2
    version, domains, said = TESTS[words[0]]()
    script = script_of(version, domains)
    if len(words) == 1:
        print(script, end="")
        return 0
    ran = subprocess.run([*words[1:], "run", "--domains", str(len(domains))], input=script, capture_output=True, text=True, check=False)
    sections, wrong = [], [] if ran.returncode == 0 else [f"status {ran.returncode}"]
    for line in ran.stdout.splitlines():
        if line.startswith("domain "):
            sections.append([])
        else:
            sections[-1].append(line)
    for number, domain in enumerate(domains):
        wrong += differs(number, domain, sections[number] if number < len(sections) else [])
    print(f"{words[0]}: {len(script.splitlines())} lines, {said}: {'as the test asks' if not wrong else 'NOT as the test asks'}")
    print("".join(f"  {line}\n" for line in wrong[:5]), end="")
    return 1 if wrong else 0


if __name__ == "__main__":
    sys.exit(main(sys.argv[1:]))
