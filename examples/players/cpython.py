#!/usr/bin/env python3
"""Plays scripts of version 1 on CPython's own objects: `cpython.py can`, `cpython.py run --domains N`. With the word `--whole` in front it
says that it can do all commands, and ./conform finds what CPython does otherwise.

Blocks are objects with strong fields, keys are weakref.ref, a finalise is __del__, a finalise_last weakref.finalize, and full_major is
gc.collect(). Domains take turns, a command each, in one thread."""
import gc
import sys
import weakref

# What CPython has not: data that don't keep their key, and a finaliser that finds the weak keys of its block as they were.
MISSING = "set_data unset_data get_data check_data finalise"


class Thing:
    """What a label names. CPython calls __del__ once, and it may bring the object back."""

    __slots__ = ("label", "finals", "__weakref__")

    def __init__(self, label):
        self.label, self.finals = label, []

    def __del__(self):
        for queue, number, register in reversed(self.finals):
            queue.append((number, self, register))
        self.finals = []


class Block(Thing):
    __slots__ = ("fields",)

    def __init__(self, label, count):
        super().__init__(label)
        self.fields = [0] * count

    def words(self):
        return len(self.fields) + 2


class Ephemeron(Thing):
    __slots__ = ("keys", "data")

    def __init__(self, label, count):
        super().__init__(label)
        self.keys, self.data = [None] * count, None

    def words(self):
        return len(self.keys) + 3

    def key(self, at):
        return self.keys[at]() if self.keys[at] is not None else None

    def set_key(self, at, block):
        def is_gone(ref, weak_self=weakref.ref(self)):
            ephemeron = weak_self()
            for place, key in enumerate(ephemeron.keys if ephemeron else ()):
                if key is ref:
                    ephemeron.keys[place] = ephemeron.data = None

        self.keys[at] = weakref.ref(block, is_gone)


class Domain:
    def __init__(self, number, shared):
        self.number, self.serial, self.out, self.queue = number, 0, [], []
        self.registers = [None] * 16
        self.registers[0] = shared

    def run_queue(self):
        """Runs the finalisers that wait."""
        while self.queue:
            waits = self.queue.pop(0)
            if isinstance(waits, str):
                self.out.append(waits)
                continue
            number, block, register = waits
            self.registers[register] = block
            self.out.append(f"fin {number} {shown(block)[4:]}")
            del waits, block


LIVE = weakref.WeakSet()


def shown(value):
    return "none" if value is None else f"int {value}" if isinstance(value, int) else "blk %d:%d" % value.label


def make(domain, kind, register, count):
    domain.serial += 1
    block = kind((domain.number, domain.serial), count)
    LIVE.add(block)
    # What the register held goes first, as it would by a command.
    domain.registers[register] = None
    domain.registers[register] = block
    return shown(block)


def put(domain, register, value):
    domain.registers[register] = value
    return "ok"


def into(domain, register, value):
    domain.registers[register] = value
    return shown(value)


def at(value, kind, place):
    """Why there is no such place in a value of this kind, or nothing."""
    if not isinstance(value, kind):
        return "type"
    return "bounds" if place >= len(value.fields if kind is Block else value.keys) else None


def set_field(domain, block, place, value):
    fault = "type" if value is None else at(block, Block, place)
    if not fault:
        block.fields[place] = value
    return fault or "ok"


def set_key(ephemeron, place, value):
    fault = at(ephemeron, Ephemeron, place) if isinstance(value, Thing) else "type"
    if not fault:
        ephemeron.set_key(place, value)
    return fault or "ok"


def unset_key(ephemeron, place):
    fault = at(ephemeron, Ephemeron, place)
    if not fault:
        ephemeron.keys[place] = None
    return fault or "ok"


def set_data(ephemeron, value):
    if not isinstance(ephemeron, Ephemeron):
        return "type"
    ephemeron.data = value
    return "ok"


def finalise(domain, block, number, register):
    if not isinstance(block, Thing):
        return "type"
    block.finals.append((domain.queue, number, register))
    return "ok"


def finalise_last(domain, block, number):
    if not isinstance(block, Thing):
        return "type"
    weakref.finalize(block, domain.queue.append, f"last {number}").atexit = False
    return "ok"


def full_major():
    gc.collect()
    return f"live {len(LIVE)} {sum(it.words() for it in LIVE)}"


def carry_out(domain, word, n):
    r = domain.registers
    match word:
        case "int": return put(domain, n[0], n[1])
        case "move": return put(domain, n[0], r[n[1]])
        case "drop": return put(domain, n[0], None)
        case "alloc" | "allocmaj": return make(domain, Block, n[0], n[2])
        case "ephe": return make(domain, Ephemeron, n[0], n[1])
        case "load": return at(r[n[1]], Block, n[2]) or into(domain, n[0], r[n[1]].fields[n[2]])
        case "store": return set_field(domain, r[n[0]], n[1], r[n[2]])
        case "set_key": return set_key(r[n[0]], n[1], r[n[2]])
        case "unset_key": return unset_key(r[n[0]], n[1])
        case "get_key": return at(r[n[1]], Ephemeron, n[2]) or into(domain, n[0], r[n[1]].key(n[2]))
        case "check_key": return at(r[n[0]], Ephemeron, n[1]) or ("yes" if r[n[0]].key(n[1]) is not None else "no")
        case "set_data": return "type" if r[n[1]] is None else set_data(r[n[0]], r[n[1]])
        case "unset_data": return set_data(r[n[0]], None)
        case "get_data": return into(domain, n[0], r[n[1]].data) if isinstance(r[n[1]], Ephemeron) else "type"
        case "check_data": return "type" if not isinstance(r[n[0]], Ephemeron) else "no" if r[n[0]].data is None else "yes"
        case "finalise": return finalise(domain, r[n[0]], n[1], n[2])
        case "finalise_last": return finalise_last(domain, r[n[0]], n[1])
        case "poll" | "minor" | "major": return "ok"
        case "full_major": return full_major()
    sys.exit(f"no such command here: {word}")


def play(text, count):
    gc.disable()
    shared = Block((0, 0), 16)
    LIVE.add(shared)
    domains, sections = [Domain(number, shared) for number in range(count)], [[] for _ in range(count)]
    del shared
    for line in text.splitlines()[1:]:
        word, *numbers = line.split()
        if word == "domain":
            here = sections[int(numbers[0])]
        else:
            here.append((word, [int(it) for it in numbers]))
    for place in range(max(map(len, sections))):
        for domain, commands in zip(domains, sections):
            if place < len(commands):
                domain.run_queue()
                domain.out.append(carry_out(domain, *commands[place]))
    for domain in domains:
        domain.run_queue()
    for domain in domains:
        print(f"domain {domain.number}", *domain.out, sep="\n")


def main(words):
    is_whole = words[0] == "--whole"
    if words[is_whole] == "can":
        print(f"name CPython {sys.version.split()[0]}\nversions 1\ndomains 8" + ("" if is_whole else f"\nwithout {MISSING}"))
    else:
        play(sys.stdin.read(), int(words[-1]))


main(sys.argv[1:])
