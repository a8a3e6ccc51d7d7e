"""Profiles: what a runtime may do otherwise by its own documentation. conform undoes it, and the strict judge judges what is left. The crate
judge_profiles says as definitions what each allows, with the laws that hold still."""
import itertools

from player import RAN
from scripts import parts_of, text_of

# So many complete collections more may stand for one of OCaml's, and so many ways are tried in which finalisers run inside them.
MOST_MORE, MOST_WAYS = 3, 64
DATA = ("set_data", "unset_data", "get_data", "check_data")
PROFILES = ("strict", "ocaml5", "weak_none", "no_finalise_first")


def may_refuse(profile, command):
    """Whether a runtime hasn't what a command does, and may refuse it by `type`."""
    word, *numbers = command.split()
    if profile == "weak_none":
        return word in DATA or word == "ephe" and int(numbers[1]) > 1
    return profile == "no_finalise_first" and word == "finalise"


def sections_of(output):
    """The lines of each domain."""
    sections = []
    for line in output.splitlines():
        if line.startswith("domain "):
            sections.append([])
        else:
            sections[-1].append(line)
    return sections


def output_of(sections):
    return "".join(f"{line}\n" for number, lines in enumerate(sections) for line in [f"domain {number}", *lines])


def without_refused(profile, script, output):
    """The script and the output without the commands that were refused."""
    version, sections = parts_of(script)
    left, told = [], []
    for commands, lines in zip(sections, sections_of(output)):
        waiting, own, own_told = iter(commands), [], []
        for line in lines:
            command = None if line.startswith(RAN) else next(waiting)
            if command and line == "type" and may_refuse(profile, command):
                continue
            own += [command] if command else []
            own_told.append(line)
        left.append(own)
        told.append(own_told)
    return text_of(version, left), output_of(told)


def with_more(sections, more):
    return [[line for command in commands for line in ([command] * (more + 1) if command == "full_major" else [command])] for commands in sections]


def inside(lines):
    """For each line of a complete collection, how many lines of finalisers stand right in front of it."""
    counts, runs = [], 0
    for line in lines:
        if line.startswith("live "):
            counts.append(runs)
        runs = runs + 1 if line.startswith(RAN) else 0
    return counts


def with_late(lines, late, more):
    """The lines of a domain where so many finalisers in front of each complete collection stand behind it, and `more` collections in front, whose
    replies aren't known."""
    found, counts = [], iter(late)
    for line in lines:
        if line.startswith("live "):
            place = len(found) - next(counts)
            first = place
            while more and first and found[first - 1].startswith(RAN):
                first -= 1
            found[place:place] = [line]
            found[first:first] = ["live ?"] * more
        else:
            found.append(line)
    return found


def readings(profile, script, output):
    """Scripts and outputs of which one is legal, where the output is legal under the profile. A line `live ?` is any reply of full_major."""
    version, sections = parts_of(script)
    if profile == "ocaml5" and version < 3:
        told = sections_of(output)
        for more in range(MOST_MORE + 1):
            ways = itertools.product(*(range(count + 1) for lines in told for count in inside(lines)))
            for way in itertools.islice(ways, MOST_WAYS):
                counts = iter(way)
                yield text_of(version, with_more(sections, more)), output_of([with_late(lines, [next(counts) for _ in inside(lines)], more) for lines in told])
    elif profile != "strict" and version < 3:
        yield without_refused(profile, script, output)


def filled(output, near):
    """The output with its first unknown reply as a legal output has it, or None where that one has none there."""
    lines, others = output.splitlines(), near.splitlines()
    at = lines.index("live ?")
    if lines[:at] != others[:at] or not others[at : at + 1] or not others[at].startswith("live "):
        return None
    return "".join(f"{line}\n" for line in [*lines[:at], others[at], *lines[at + 1 :]])


def is_legal(strict, script, output):
    """Whether the strict judge finds a history, by its own words for replies that aren't known."""
    judged = strict(script, output)
    while judged.status and "live ?" in output:
        output = filled(output, judged.near)
        if output is None:
            return False
        judged = strict(script, output)
    return judged.status == 0


def judge(strict, profile, script, output):
    """What the strict judge says, or that the output is legal under the profile."""
    judged = strict(script, output)
    if judged.status and any(is_legal(strict, *reading) for reading in readings(profile, script, output)):
        judged.status, judged.said, judged.near = 0, "legal under the profile", ""
    return judged
