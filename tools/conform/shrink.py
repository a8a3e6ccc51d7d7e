"""Makes a failing script short: leaves out sections and lines, as long as what is left still fails in the same way."""
from scripts import text_of


def without_section(version, sections, gone):
    """The sections but for one, and without the lines that name it. Nothing where it spawns others."""
    if version < 3:
        return sections[:gone] + sections[gone + 1 :]
    if any(line.startswith("spawn ") for line in sections[gone]):
        return None
    return [[renamed(line, gone) for line in it if place_of(line) != gone] for at, it in enumerate(sections) if at != gone]


def place_of(line):
    """Which section a line spawns or joins, if any."""
    word, *numbers = line.split()
    return int(numbers[0]) if word == "spawn" else int(numbers[1]) if word == "join" else None


def renamed(line, gone):
    """The line where the sections behind one that is gone have a lower number."""
    place = place_of(line)
    if place is None or place < gone:
        return line
    word, first, second = line.split()
    return f"spawn {place - 1} {second}" if word == "spawn" else f"join {first} {place - 1}"


def without_lines(sections, number, begin, end):
    """The sections without some lines of one of them, and without the lines of a section that is spawned no more."""
    return [it[:begin] + it[end:] if at == number else it for at, it in enumerate(sections)]


def shortest(version, sections, fails):
    """The shortest sections that it comes to. `fails` says whether a script still fails."""
    is_shorter = True
    while is_shorter:
        before = sum(map(len, sections)) + len(sections)
        sections = fewer_sections(version, sections, fails)
        for number in range(len(sections)):
            sections = fewer_lines(version, sections, number, fails)
        version, sections = lower_version(version, sections, fails)
        is_shorter = sum(map(len, sections)) + len(sections) < before
    return version, sections


def lower_version(version, sections, fails):
    for lower in range(1, version):
        if fails(text_of(lower, sections)):
            return lower, sections
    return version, sections


def fewer_sections(version, sections, fails):
    for gone in reversed(range(len(sections))):
        left = without_section(version, sections, gone)
        if left and fails(text_of(version, left)):
            sections = left
    return sections


def fewer_lines(version, sections, number, fails):
    """Leaves out stretches of a section's lines: long ones first, and then single lines."""
    stretch = len(sections[number])
    while stretch:
        at = 0
        while at < len(sections[number]):
            left = without_lines(sections, number, at, at + stretch)
            if fails(text_of(version, left)):
                sections = left
            else:
                at += stretch
        stretch //= 2
    return sections
