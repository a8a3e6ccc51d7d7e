"""Whether some order of the commands prints an output: a search of its own, which knows no collection. It reads a script of version 1 or 2, a
line --- and an output, and prints `legal`, `none`, or `unknown` where a command is there that a collection may change."""
import sys

KNOWN = {"int", "move", "drop", "alloc", "raw", "load", "store", "cas"}
WEAK = {"set_key", "unset_key", "get_key", "check_key", "set_data", "unset_data", "get_data", "check_data"}


def sections(text, read):
    parts = []
    for line in text.split("\n"):
        if line.startswith("domain "):
            parts.append([])
        elif parts and line:
            parts[-1].append(read(line))
    return parts


def shown(value):
    return "none" if value is None else f"int {value}" if isinstance(value, int) else f"blk {value[0]}:{value[1]}"


def number(text):
    return int(text)


def step(d, command, registers, blocks, serials):
    """What a command answers; it changes its copies of the state."""
    word, *words = command
    mine = registers[d]
    n = [number(w) for w in words]
    if word == "int":
        mine[n[0]] = n[1]
    elif word == "move":
        mine[n[0]] = mine[n[1]]
    elif word == "drop":
        mine[n[0]] = None
    elif word in ("alloc", "raw"):
        serials[d] += 1
        label = (d, serials[d])
        blocks[label] = (word == "raw", [0] * n[2])
        mine[n[0]] = label
        return shown(label)
    elif word.startswith("finalise"):
        return "ok" if isinstance(mine[n[0]], tuple) else "type"
    elif word in WEAK:
        return "type"
    else:
        block = mine[n[1] if word == "load" else n[0]]
        if not isinstance(block, tuple):
            return "type"
        raw, fields = blocks[block]
        index = n[2] if word == "load" else n[1]
        items = [] if word == "load" else [mine[r] for r in n[2:]]
        if any(v is None or (raw and isinstance(v, tuple)) for v in items):
            return "type"
        if index >= len(fields):
            return "bounds"
        if word == "load":
            mine[n[0]] = fields[index]
            return shown(fields[index])
        if word == "cas" and fields[index] != items[0]:
            return "no"
        fields[index] = items[-1]
        return "yes" if word == "cas" else "ok"
    return "ok"


def is_known(command, line):
    """Whether no collection changes a command that prints this line. With no `ephe` no register holds an ephemeron."""
    return command[0] in KNOWN or command[0] in WEAK or (command[0].startswith("finalise") and line == "type")


def search(script, lines):
    count = len(script)
    opening = ([0] * count, [[(0, 0)] + [None] * 15 for _ in range(count)], {(0, 0): (False, [0] * 16)}, [0] * count)
    stack, seen = [opening], set()
    while stack:
        made, registers, blocks, serials = stack.pop()
        if all(made[d] == len(script[d]) for d in range(count)):
            return "legal"
        key = repr((made, registers, sorted(blocks.items())))
        if key in seen:
            continue
        seen.add(key)
        for d in range(count):
            if made[d] == len(script[d]):
                continue
            rs, bs, ss = [list(r) for r in registers], {k: (v[0], list(v[1])) for k, v in blocks.items()}, list(serials)
            if step(d, script[d][made[d]], rs, bs, ss) == lines[d][made[d]]:
                stack.append(([m + (k == d) for k, m in enumerate(made)], rs, bs, ss))
    return "none"


def judge(text):
    first, _, output = text.partition("\n---\n")
    script, lines = sections(first, str.split), sections(output, str)
    if [len(p) for p in script] != [len(p) for p in lines]:
        return "unknown"
    if not all(is_known(c, line) for part, told in zip(script, lines) for c, line in zip(part, told)):
        return "unknown"
    return search(script, lines)


if __name__ == "__main__":
    print(judge(sys.stdin.read()))
