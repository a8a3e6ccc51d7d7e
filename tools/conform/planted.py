#!/usr/bin/env python3
"""A slow heap that keeps to the definitions, or breaks one of their rules: `planted.py RULE can`, `planted.py RULE run --domains N`.
It is the player by which `./conform --self-test` is tried. Domains take turns by chance, in one thread."""
import random
import sys

# The rules that it may break.
RULES = {
    "key_early": "a minor collection empties the weak keys of young blocks that are reached",
    "final_twice": "a finaliser runs twice",
    "lost_store": "each third store into the shared block is lost",
    "stale_load": "each third load answers what the field held before",
    "join_early": "a join doesn't wait",
    "live_off": "full_major counts an ephemeron twice",
    "cas_twice": "two domains that expect the same both write",
    "data_kept": "data stay where their key is emptied",
}
NOTHING = None
HIDDEN, SCRATCH = 15, 14


class Block:
    """A plain or raw block has fields, an ephemeron keys and data. A value is an integer, a block or nothing."""

    def __init__(self, label, fields=None, keys=None, is_raw=False):
        self.label, self.fields, self.keys, self.is_raw = label, fields, keys, is_raw
        self.data = NOTHING
        # What the fields held before, and what the last compare-and-set of each has found, by which domain.
        self.before, self.found = {}, {}

    def words(self):
        return len(self.fields) + 2 if self.keys is None else len(self.keys) + 3


class Domain:
    def __init__(self, number, shared, hidden):
        self.number, self.serial, self.out = number, 0, []
        self.registers = [NOTHING] * 16
        self.registers[0], self.registers[HIDDEN] = shared, hidden
        # Registrations as (number, block, register or None), the oldest first; the queue, the next one first; and blocks made since a minor.
        self.finals, self.lasts, self.queue, self.young = [], [], [], []
        self.argument, self.result, self.has_begun, self.has_ended = 0, 0, True, False


def shown(value):
    return "none" if value is NOTHING else f"int {value}" if isinstance(value, int) else "blk %d:%d" % value.label


def is_plain(value):
    return isinstance(value, Block) and value.keys is None


def is_ephemeron(value):
    return isinstance(value, Block) and value.keys is not None


class Heap:
    def __init__(self, domains, version, rule):
        self.rule, self.count = rule, 0
        shared = Block((0, 0), fields=[0] * 16)
        hidden = Block((0, 1), fields=[0] * 24) if version == 3 else NOTHING
        self.hidden = hidden
        self.domains = [Domain(number, shared, hidden) for number in range(domains)]
        self.domains[0].serial = int(version == 3)

    def each_third(self):
        self.count += 1
        return self.count % 3 == 0

    # Reach, and the complete collection.

    def roots(self):
        for d in self.domains:
            yield from d.registers
            yield from (block for _, block, register in d.queue if register is not None)

    def reached(self, more=()):
        """The blocks that the roots lead to, through ephemerons whose full keys are all reached."""
        found, left, weak = {}, [*self.roots(), *more], []
        while left:
            value = left.pop()
            if isinstance(value, Block) and value.label not in found:
                found[value.label] = value
                weak += [value] if value.keys is not None else []
                left += value.fields or []
            if not left:
                left += [e.data for e in weak if all(k is NOTHING or k.label in found for k in e.keys)]
                left = [it for it in left if isinstance(it, Block) and it.label not in found]
        return found

    def collect(self):
        """A complete collection. Answers the blocks that are left."""
        reach = self.reached()
        for d in self.domains:
            dead = [it for it in d.finals if it[1].label not in reach]
            d.finals = [it for it in d.finals if it[1].label in reach]
            d.queue += reversed(dead)
        settled = self.reached([block for d in self.domains for _, block, _ in d.finals])
        for block in settled.values():
            self.empty_keys(block, settled)
        for d in self.domains:
            gone = [it for it in d.lasts if it[1].label not in settled]
            d.lasts = [it for it in d.lasts if it[1].label in settled]
            d.queue += reversed(gone)
        return self.reached()

    def empty_keys(self, block, kept):
        for at, key in enumerate(block.keys or []):
            if key is not NOTHING and key.label not in kept:
                block.keys[at] = NOTHING
                if self.rule != "data_kept":
                    block.data = NOTHING

    # Commands.

    def make(self, d, dst, **parts):
        d.serial += 1
        d.registers[dst] = Block((d.number, d.serial), **parts)
        d.young.append(d.registers[dst])
        return shown(d.registers[dst])

    def load(self, d, dst, src, index):
        block = d.registers[src]
        if not is_plain(block):
            return "type"
        if index >= len(block.fields):
            return "bounds"
        is_stale = self.rule == "stale_load" and self.each_third()
        d.registers[dst] = block.before.get(index, block.fields[index]) if is_stale else block.fields[index]
        return shown(d.registers[dst])

    def fault_of_store(self, d, block, index, *items):
        if not is_plain(block) or any(it is NOTHING for it in items) or block.is_raw and isinstance(items[-1], Block):
            return "type"
        return "bounds" if index >= len(block.fields) else ""

    def store(self, d, src, index, item):
        block, value = d.registers[src], d.registers[item]
        fault = self.fault_of_store(d, block, index, value)
        if not fault and not (self.rule == "lost_store" and block.label == (0, 0) and self.each_third()):
            block.before[index], block.fields[index] = block.fields[index], value
        return fault or "ok"

    def cas(self, d, src, index, expected, item):
        block, wanted, value = d.registers[src], d.registers[expected], d.registers[item]
        fault = self.fault_of_store(d, block, index, wanted, value)
        if fault:
            return fault
        won = block.found.get(index)
        if block.fields[index] is wanted or block.fields[index] == wanted:
            block.found[index] = (d.number, wanted)
        elif not (self.rule == "cas_twice" and won and won[0] != d.number and won[1] == wanted):
            return "no"
        block.fields[index] = value
        return "yes"

    def at_key(self, d, e, index):
        """The ephemeron in a register, or the reply that refuses its key."""
        block = d.registers[e]
        return "type" if not is_ephemeron(block) else "bounds" if index >= len(block.keys) else block

    def set_key(self, d, e, index, value):
        block = self.at_key(d, e, index)
        if isinstance(block, str):
            return block
        block.keys[index] = value
        return "ok"

    def into(self, d, dst, value):
        d.registers[dst] = value
        return shown(value)

    def minor(self, d):
        for block in self.reached().values() if self.rule == "key_early" else ():
            for at, key in enumerate(block.keys or []):
                if key in d.young:
                    block.keys[at] = block.data = NOTHING
        d.young = []
        return "ok"

    def full_major(self):
        left = self.collect()
        twice = sum(1 for it in left.values() if it.keys is not None) if self.rule == "live_off" else 0
        return f"live {len(left) + twice} {sum(it.words() for it in left.values())}"

    def carry_out(self, d, word, n):
        r = d.registers
        block = r[n[0]] if n and n[0] < 16 else NOTHING
        match word:
            case "int": return self.put(d, n[0], n[1])
            case "move": return self.put(d, n[0], r[n[1]])
            case "drop": return self.put(d, n[0], NOTHING)
            case "alloc" | "allocmaj": return self.make(d, n[0], fields=[0] * n[2])
            case "raw": return self.make(d, n[0], fields=[0] * n[2], is_raw=True)
            case "ephe": return self.make(d, n[0], keys=[NOTHING] * n[1])
            case "load": return self.load(d, *n)
            case "store": return self.store(d, *n)
            case "cas": return self.cas(d, *n)
            case "set_key": return self.set_key(d, n[0], n[1], r[n[2]]) if isinstance(r[n[2]], Block) else "type"
            case "unset_key": return self.set_key(d, n[0], n[1], NOTHING)
            case "get_key":
                found = self.at_key(d, n[1], n[2])
                return found if isinstance(found, str) else self.into(d, n[0], found.keys[n[2]])
            case "check_key":
                found = self.at_key(d, n[0], n[1])
                return found if isinstance(found, str) else "yes" if found.keys[n[1]] else "no"
            case "set_data":
                if r[n[1]] is NOTHING or not is_ephemeron(block): return "type"
                block.data = r[n[1]]
                return "ok"
            case "unset_data":
                if not is_ephemeron(block): return "type"
                block.data = NOTHING
                return "ok"
            case "get_data": return self.into(d, n[0], r[n[1]].data) if is_ephemeron(r[n[1]]) else "type"
            case "check_data": return "type" if not is_ephemeron(block) else "no" if block.data is NOTHING else "yes"
            case "finalise": return self.register(d.finals, block, n[1], n[2])
            case "finalise_last": return self.register(d.lasts, block, n[1], None)
            case "poll" | "major": return "ok"
            case "minor": return self.minor(d)
            case "full_major": return self.full_major()
            case "spawn": return self.spawn(d, *n)
            case "argument": return self.into(d, n[0], d.argument)
            case "result": return self.give_result(d, r[n[0]])
            case "join": return self.into(d, n[0], self.domains[n[1]].result if self.domains[n[1]].has_ended else 0)

    def put(self, d, dst, value):
        d.registers[dst] = value
        return "ok"

    def register(self, registrations, block, number, register):
        if not isinstance(block, Block):
            return "type"
        registrations.append((number, block, register))
        return "ok"

    # Sections that spawn and join. What is passed stays in the hidden block.

    def spawn(self, d, section, item):
        child, value = self.domains[section], d.registers[item]
        child.argument, child.has_begun = 0 if value is NOTHING else value, True
        self.hidden.fields[8 + section] = child.argument
        return "ok"

    def give_result(self, d, value):
        if value is NOTHING:
            return "type"
        d.result = self.hidden.fields[16 + d.number] = value
        return "ok"

    # Turns.

    def run_first(self, d):
        number, block, register = d.queue.pop(0)
        d.out.append(f"last {number}" if register is None else f"fin {number} %d:%d" % block.label)
        if register is not None:
            d.registers[register] = block
            if self.rule == "final_twice":
                d.out.append(d.out[-1])

    def end(self, d):
        d.has_ended, d.registers, d.finals, d.lasts = True, [NOTHING] * 16, [], []

    def is_ready(self, d, commands):
        if d.has_ended or not d.has_begun:
            return False
        is_waiting = not d.queue and commands and commands[0].startswith("join ") and not self.domains[int(commands[0].split()[2])].has_ended
        return not is_waiting or self.rule == "join_early"

    def turn(self, d, commands):
        """One finaliser, or else the next command, or the end."""
        if d.queue:
            self.run_first(d)
        elif commands:
            word, *numbers = commands.pop(0).split()
            d.out.append(self.carry_out(d, word, [int(it) for it in numbers]))
        else:
            self.end(d)


def play(text, domains, rule):
    first, *lines = text.splitlines()
    version = int(first.split()[1])
    heap, sections = Heap(domains, version, rule), [[] for _ in range(domains)]
    for line in lines:
        if line.startswith("domain "):
            here = sections[int(line.split()[1])]
        else:
            here.append(line)
    for line in (line for it in sections for line in it if line.startswith("spawn ")):
        heap.domains[int(line.split()[1])].has_begun = False
    while ready := [d for d in heap.domains if heap.is_ready(d, sections[d.number])]:
        d = random.choice(ready)
        heap.turn(d, sections[d.number])
    for d in heap.domains:
        print(f"domain {d.number}", *d.out, sep="\n")


def main():
    rule, what, *words = sys.argv[1:]
    if what == "can":
        print(f"name a slow heap that breaks the rule {rule}\nversions 1 2 3\ndomains 8")
    else:
        play(sys.stdin.read(), int(words[1]), rule)


if __name__ == "__main__":
    main()
