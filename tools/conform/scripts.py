"""Random scripts: lines that belong together, and single commands between, over few registers, so that they meet."""
import random

# How many lines each of so many domains has, in hundredths of what one alone has.
SHARES = [100, 50, 33, 24, 20, 16, 14, 12]
# Lines that belong together. A letter is a register, each another one, W a number of a finaliser, N a small integer.
SHAPES = [
    ["alloc A 0 2", "store A 0 B"], ["alloc A 0 1", "alloc B 0 1", "store B 0 A"], ["ephe A 1", "alloc B 0 1", "set_key A 0 B", "check_key A 0"],
    ["alloc A 0 1", "ephe B 1", "set_key B 0 A", "minor", "check_key B 0", "get_key C B 0"],
    # Integers that are stored and loaded, in a block of one's own and in the shared one.
    ["int A N", "alloc B 0 2", "store B 0 A", "int A N", "store B 0 A", "load C B 0"], ["int A N", "store 0 1 A", "load B 0 1"],
    ["int A N", "store 0 0 A", "load B 0 1"], ["int A N", "store 0 1 A", "load B 0 0"],
    # Data that lead to their own key; a chain of two; data that go with their key.
    ["alloc A 0 1", "alloc B 0 1", "store B 0 A", "ephe C 1", "set_key C 0 A", "set_data C B", "drop A", "drop B", "full_major", "check_data C"],
    ["alloc A 0 1", "alloc B 0 1", "ephe C 1", "ephe D 1", "set_key C 0 A", "set_data C B", "set_key D 0 B", "set_data D A", "drop A", "drop B", "full_major"],
    ["alloc A 0 1", "ephe C 1", "set_key C 0 A", "int B N", "set_data C B", "drop A", "full_major", "check_key C 0", "check_data C"],
    # A cycle with a weak key and a finaliser; finalisers of both kinds on one block.
    ["alloc A 0 1", "alloc B 0 1", "store A 0 B", "store B 0 A", "ephe C 1", "set_key C 0 A", "finalise A W D", "drop A", "drop B", "full_major", "poll"],
    ["alloc A 0 1", "finalise A W B", "finalise_last A W", "drop A", "full_major", "drop B", "full_major", "poll"],
    ["alloc A 0 1", "finalise_last A W", "finalise_last A W", "drop A", "full_major", "full_major", "poll"],
    ["ephe C 2", "set_key C 0 A", "set_key C 1 B", "set_data C D"], ["finalise A W B"], ["finalise A W A"], ["finalise_last A W"],
    # Compare-and-set where several domains may win, and raw blocks.
    ["int A 0", "int B N", "cas 0 0 A B", "load C 0 0"], ["int A 0", "int B N", "cas 0 0 A B"], ["raw A 252 2", "int B N", "store A 0 B", "load C A 0", "store A 1 A"],
    ["cas 0 0 A B"], ["cas A 0 B C"], ["raw A 255 1"],
    # A block that another domain may find.
    ["alloc A 0 1", "int B N", "store A 0 B", "store 0 0 A"], ["load A 0 0", "load B A 0"], ["load A 0 0", "ephe B 1", "set_key B 0 A", "drop A", "check_key B 0"],
    ["drop A"], ["drop A", "drop B"], ["full_major"], ["full_major"], ["minor"], ["major"], ["poll"], ["check_key A 0"], ["get_key A B 0"], ["get_key A B 1"],
    ["check_data A"], ["get_data A B"], ["store A 0 B"], ["load A B 0"], ["move A B"], ["int A N"], ["unset_key A 0"], ["unset_data A"], ["store 0 1 A"],
    ["load A 0 1"], ["set_data A B"], ["set_key A 0 B"], ["set_key A 1 B"], ["allocmaj A 0 3"], ["alloc A 0 126"], ["load A B 2"], ["drop 0"],
]  # fmt: skip


def shape(dice, words):
    """A few lines that this player can do."""
    forms = [form for form in SHAPES if all(line.split()[0] in words for line in form)]
    names = dict(zip("ABCD", dice.sample(range(1, 6), 4)))
    chosen = lambda word: str(dice.randrange(9)) if word in "WN" else str(names.get(word, word))
    return [" ".join([word, *map(chosen, rest)]) for word, *rest in (line.split() for line in dice.choice(forms))]


def section(dice, words, length):
    lines = []
    while len(lines) < length:
        lines += shape(dice, words)
    return lines


def spawn_all(dice, sections):
    """Puts lines into the sections by which each but the first is spawned and mostly joined, by one before it."""
    for child in range(1, len(sections)):
        parent = sections[dice.randrange(child)]
        # Lines that a parent has already keep their order: a join stands behind its spawn.
        place = dice.randrange(min(len(parent), 8) + 1)
        lines = [f"spawn {child} {dice.randrange(1, 6)}"]
        parent[place:place] = lines
        if dice.randrange(4):
            behind = dice.randrange(place + 1, len(parent) + 1)
            parent[behind:behind] = [f"join {dice.randrange(1, 6)} {child}", *dice.choice([[], ["load 3 0 1"], ["load 4 0 0"]])]
        own = sections[child]
        own[0:0] = [f"argument {dice.randrange(1, 6)}"]
        own += [*dice.choice([[], ["int 5 7", "store 0 1 5"]]), f"result {dice.randrange(1, 6)}"]


def random_script(seed, version, domains, words, length):
    """The text of a script: the same for the same words."""
    dice = random.Random(f"{seed} {version} {domains}")
    sections = [section(dice, words, max(4, length * SHARES[domains - 1] // 100)) for _ in range(domains)]
    if "full_major" in words and dice.randrange(2):
        sections[0].append("full_major")
    if version == 3:
        spawn_all(dice, sections)
    return text_of(version, sections)


def young_script(seed, version, domains, length):
    """The text of a script of two domains or more: the last one registers `finalise_last` on young blocks that the first one keeps, and both make a
    minor collection. How long each waits before it does so is random."""
    dice = random.Random(f"young {seed}")
    blocks, wait = dice.randrange(20, 120), lambda: ["int 5 1"] * dice.randrange(length)
    makes = [line for field in range(blocks) for line in ("alloc 1 0 1", f"store 3 {field} 1")]
    registers = [line for field in range(blocks) for line in (f"load 1 4 {field}", f"finalise_last 1 {field}")]
    first = ["alloc 3 0 126", "store 0 1 3", *makes, *wait(), "minor", *["alloc 2 0 126"] * dice.randrange(50, 200)]
    last = [*wait(), "load 4 0 1", *registers, "minor", "poll", "poll"]
    return text_of(version, [first, *[["minor"]] * (domains - 2), last])


def text_of(version, sections):
    lines = [f"heap {version}"]
    for number, commands in enumerate(sections):
        lines += [f"domain {number}", *commands]
    return "".join(f"{line}\n" for line in lines)


def parts_of(script):
    """The version and the sections of a script, in which each section has a heading."""
    first, *lines = script.splitlines()
    sections = []
    for line in lines:
        if line.startswith("domain "):
            sections.append([])
        else:
            sections[-1].append(line)
    return int(first.split()[1]), sections
