#!/usr/bin/env python3
"""The machine of a text of a table: whether it may answer a text so.

  bench/tables/machine.py check TEXT OUTPUT [MINOR POOLS]     judges one output; ends with 1 where the machine can't answer so
  bench/tables/machine.py random PROGRAM COUNT [SEED]         runs so many random texts of up to 300 lines, and judges each output
  bench/tables/machine.py judge PROGRAM CHECKER COUNT [SEED]  has history_check judge each besides, as it is and with a reply changed;
                                                              ends with 1 where it and the machine differ

A key that no register holds may go before any line, from the bindings and from all slots at once, and all of these have gone after
`full_major`. So the machine's states are kept as a set: which keys are left, of those that a register or a slot may still give
back, and how many others are bound at most. MINOR and POOLS are those of the words of the run, 32768 and 512 without them."""
import random
import subprocess
import sys

REGISTERS = range(1, 6)
CLASSES = 9


class Wrong(Exception):
    """A reply that the machine doesn't give."""


class Machine:
    def __init__(self, version, minor, pools):
        self.labels = {"table 1": 2, "table 2": 7}[version]  # how many a put may make
        self.registers = {r: None for r in REGISTERS}
        self.slots = {}  # slot -> the key that it had last
        self.values = {}  # key -> what it is bound to, if it is left
        self.states = {(frozenset(), 0)}  # keys left that may be met again, and how many others may be bound
        self.made = 0
        self.puts = 0
        self.keys = 0
        self.spare = pools - (minor // 4096 + CLASSES) - CLASSES

    def held(self):
        return {key for key in self.registers.values() if key is not None}

    def let_go(self):
        """Before a line: what no register holds may go, and what can't be met again is only counted."""
        held = self.held()
        met = held | set(self.slots.values())
        most = {}
        for left, others in self.states:
            others += sum(key in self.values for key in left - met)
            todo = [left & met]
            while todo:
                left = todo.pop()
                if most.get(left, -1) < others:
                    most[left] = others
                    todo += [left - {key} for key in left - held]
        self.states = set(most.items())

    def keep(self, states):
        self.states = set(states)
        if not self.states:
            raise Wrong("no state of the machine gives this reply")

    def line(self, text, reply):
        word, *numbers = text.split()
        self.let_go()
        if word in ("key", "put"):
            self.keys += word == "key"
            self.puts += word == "put"
        getattr(self, word)(reply, *[int(number) for number in numbers])

    def is_full(self, reply):
        """Whether an allocation was refused, which is only where it may be."""
        if reply == "full" and 19 + self.labels * self.puts + self.keys < self.spare:
            raise Wrong("full while there is room")
        return reply == "full"

    def expect(self, reply, *allowed):
        if reply not in allowed:
            raise Wrong(f"not {' or '.join(allowed)}")

    def with_key(self, register, reply):
        """The key in a register; without one the reply must be `type`."""
        key = self.registers[register]
        if key is None:
            self.expect(reply, "type")
        elif reply == "type":
            raise Wrong("the register holds a key")
        return key

    def key(self, reply, register):
        if not self.is_full(reply):
            self.expect(reply, "ok")
            self.made += 1
            self.registers[register] = self.made
            self.keep((left | {self.made}, others) for left, others in self.states)

    def forget(self, reply, register):
        self.expect(reply, "ok")
        self.registers[register] = None

    def put(self, reply, register, value):
        key = self.with_key(register, reply)
        if key is not None and not self.is_full(reply):
            self.expect(reply, "ok")
            self.values[key] = value

    def get(self, reply, register):
        key = self.with_key(register, reply)
        if key is not None:
            self.expect(reply, f"int {self.values[key]}" if key in self.values else "none")

    # `del` is a word of the language.
    def delete(self, reply, register):
        key = self.with_key(register, reply)
        if key is not None:
            self.expect(reply, "ok" if key in self.values else "none")
            self.values.pop(key, None)

    def wset(self, reply, slot, register):
        key = self.with_key(register, reply)
        if key is not None:
            self.expect(reply, "ok")
            self.slots[slot] = key

    def wget(self, reply, register, slot):
        key = self.slots.get(slot)
        self.expect(reply, "none", *(["yes"] if key is not None else []))
        self.keep((left, others) for left, others in self.states if (key in left) == (reply == "yes"))
        self.registers[register] = key if reply == "yes" else None
        if reply == "none":
            self.slots.pop(slot, None)

    def count(self, reply):
        word, _, number = reply.partition(" ")
        if word != "count" or not number.isdigit():
            raise Wrong("no count")
        exact = ((left, int(number) - sum(key in self.values for key in left), others) for left, others in self.states)
        self.keep((left, rest) for left, rest, others in exact if 0 <= rest <= others)

    def full_major(self, reply):
        self.expect(reply, "ok")
        held = self.held()
        self.keep({(left & held, 0) for left, _ in self.states})


setattr(Machine, "del", Machine.delete)


def judge(text, output, minor, pools):
    """What is wrong with an output, or None."""
    version, *lines = text.splitlines()
    replies = output.splitlines()
    if len(lines) != len(replies):
        return f"{len(replies)} replies to {len(lines)} lines"
    machine = Machine(version, minor, pools)
    for number, (line, reply) in enumerate(zip(lines, replies), 2):
        try:
            machine.line(line, reply)
        except Wrong as wrong:
            return f"line {number}, {line}: {reply}: {wrong}"
    return None


def random_line(chance):
    register, slot = chance.choice(REGISTERS), chance.randrange(8)
    forms = {
        "key": (f"key {register}", 5),
        "forget": (f"forget {register}", 4),
        "put": (f"put {register} {chance.randrange(-1000, 1000)}", 6),
        "get": (f"get {register}", 4),
        "del": (f"del {register}", 1),
        "wset": (f"wset {slot} {register}", 3),
        "wget": (f"wget {register} {slot}", 3),
        "count": ("count", 2),
        "full_major": ("full_major", chance.choice([0, 0, 1])),
    }
    return chance.choices([line for line, _ in forms.values()], [weight for _, weight in forms.values()])[0]


def random_text(chance):
    return "".join(line + "\n" for line in [chance.choice(["table 1", "table 2"])] + [random_line(chance) for _ in range(chance.randrange(301))])


def run_random(program, count, seed):
    chance = random.Random(seed)
    bad = replies = full = 0
    for number in range(count):
        text = random_text(chance)
        minor, pools = chance.choice([(4096, 51), (4096, 64), (32768, 512)])
        words = [program, "table", "--minor", str(minor), "--pools", str(pools)]
        ran = subprocess.run(words, input=text, capture_output=True, text=True, timeout=300, check=False)
        wrong = f"status {ran.returncode}" if ran.returncode else judge(text, ran.stdout, minor, pools)
        replies += ran.stdout.count("\n")
        full += ran.stdout.count("full\n")
        if wrong:
            bad += 1
            print(f"text {number} of seed {seed}, {' '.join(words[1:])}: {wrong}")
    print(f"{count} random texts, {replies} replies, {full} of them full: {bad} outputs that the machine doesn't allow")
    return bad


def run_text(program, text, words):
    ran = subprocess.run([program, "table", *words], input=text, capture_output=True, text=True, timeout=300, check=False)
    if ran.returncode:
        sys.exit(f"status {ran.returncode} of {program} table {' '.join(words)}")
    return ran.stdout


def changed(chance, output):
    """The output with one reply changed."""
    replies = output.splitlines()
    at = chance.randrange(len(replies))
    word, _, number = replies[at].partition(" ")
    others = ["ok", "full", "type", "none", "yes", "int 7", "count 1"]
    if number:
        others += 4 * [f"{word} {abs(int(number) + chance.choice([-1, 1]))}"]
    replies[at] = chance.choice([other for other in others if other != replies[at]])
    return "".join(reply + "\n" for reply in replies)


def is_legal(checker, text, output, words):
    """What history_check says."""
    ran = subprocess.run([checker, "--domains", "1", *words], input=f"{text}---\n{output}", capture_output=True, text=True, timeout=300, check=False)
    if ran.returncode not in (0, 6):
        sys.exit(f"status {ran.returncode} of {checker}: {ran.stderr}")
    return ran.returncode == 0


def run_judge(program, checker, count, seed):
    chance = random.Random(seed)
    bad = legal = other = refused = 0
    for number in range(count):
        text = random_text(chance)
        minor, pools = chance.choice([(4096, 51), (4096, 64), (32768, 512)])
        words = ["--minor", str(minor), "--pools", str(pools)]
        output = run_text(program, text, words)
        outputs = [output, changed(chance, output)] if output else [output]
        for judged in outputs:
            found = is_legal(checker, text, judged, words)
            allowed = judge(text, judged, minor, pools) is None
            legal += found and judged is output
            other += found and judged is not output
            refused += not found and judged is not output
            if found != allowed or (judged is output and not found):
                bad += 1
                print(f"text {number} of seed {seed}, {' '.join(words)}: history_check {found}, the machine {allowed}, changed {judged is not output}")
    print(f"{count} random texts: {legal} outputs legal; with one reply changed {refused} have no run, {other} are legal; {bad} are judged otherwise by the machine")
    return bad


def main(words):
    if words[:1] == ["judge"] and len(words) in (4, 5):
        return 1 if run_judge(words[1], words[2], int(words[3]), int(words[4]) if words[4:] else 1) else 0
    if words[:1] == ["check"] and len(words) in (3, 5):
        with open(words[1], encoding="ascii") as text, open(words[2], encoding="ascii") as output:
            wrong = judge(text.read(), output.read(), *(map(int, words[3:]) if words[3:] else (32768, 512)))
        if wrong:
            print(wrong)
        return 1 if wrong else 0
    if words[:1] == ["random"] and len(words) in (3, 4):
        return 1 if run_random(words[1], int(words[2]), int(words[3]) if words[3:] else 1) else 0
    print(__doc__, file=sys.stderr)
    return 2


if __name__ == "__main__":
    sys.exit(main(sys.argv[1:]))
