"""What is told of scripts: a failure with its shortest script, a summary, and a JUnit file."""
import collections
import dataclasses
import os
import xml.etree.ElementTree as xml

from player import RAN
from scripts import parts_of


@dataclasses.dataclass
class Case:
    """A script and what came of it. Of one that fails `short` is the shortest that still does."""

    seed: int
    script: str
    verdict: object
    seconds: float
    short: str = ""
    short_verdict: object = None

    def name(self):
        version, sections = parts_of(self.script)
        return f"seed {self.seed}, version {version}, {len(sections)} domain{'s' if len(sections) > 1 else ''}"


def by_domain(output):
    """The lines of each domain."""
    found = []
    for line in output.splitlines():
        if line.startswith("domain "):
            found.append([])
        elif found:
            found[-1].append(line)
    return found


def beside(commands, lines):
    """The lines of a domain, each with its command; a finaliser has none."""
    waiting = iter(commands)
    return [("" if line.startswith(RAN) else next(waiting, ""), line) for line in lines]


def first_difference(lines, near):
    """The place of the first line that isn't as the legal output has it."""
    places = [at for at, pair in enumerate(zip(lines, near)) if pair[0] != pair[1]]
    return places[0] if places else min(len(lines), len(near)) if len(lines) != len(near) else None


def rows(script, verdict):
    """The script with its replies, domain by domain. The first line that is wrong is marked, with what a legal output has there."""
    _, sections = parts_of(script)
    near = by_domain(verdict.judged.near) if verdict.judged and verdict.judged.near else []
    told = []
    for number, lines in enumerate(by_domain(verdict.output)):
        at = first_difference(lines, near[number]) if number < len(near) else None
        told.append(f"  domain {number}")
        for place, (command, line) in enumerate(beside(sections[number] if number < len(sections) else [], lines)):
            mark = f"   <-- a legal output has `{near[number][place]}`" if place == at and place < len(near[number]) else ""
            mark = mark or ("   <-- a legal output has ended" if place == at else "")
            told.append(f"    {command:24} {line}{mark}")
        if at is not None and at == len(lines):
            told.append(f"    {'':24} <-- a legal output has `{near[number][at]}` here")
    return told


def told(case):
    """A failure, as it is printed."""
    short = case.short_verdict
    lines = [f"{case.name()}: {short.kind}", f"  {short.said}", f"  the shortest script that fails so, {len(case.short.splitlines())} lines of {len(case.script.splitlines())}:", ""]
    lines += [f"    {it}" for it in case.short.splitlines()]
    if short.output:
        lines += ["", "  its commands and replies:", "", *rows(case.short, short)]
    return "\n".join([*lines, ""])


def summary(name, profile, cases):
    counts = collections.Counter(case.verdict.kind for case in cases)
    of = "" if profile == "strict" else f", profile {profile}"
    return f"{name}{of}: {len(cases)} scripts, " + ", ".join(f"{count} {kind}" for kind, count in counts.most_common())


def keep(folder, case, name=None):
    """Writes a failing script, its output, and what was said."""
    os.makedirs(folder, exist_ok=True)
    name = name or f"seed_{case.seed}"
    files = {
        f"{name}.heap": case.script, f"{name}.output": case.verdict.output,
        f"{name}.short.heap": case.short, f"{name}.short.output": case.short_verdict.output, f"{name}.said": told(case),
    }  # fmt: skip
    for file, text in files.items():
        with open(f"{folder}/{file}", "w", encoding="utf-8") as it:
            it.write(text)


def write_junit(path, name, cases):
    failed = [case for case in cases if case.verdict.is_failure]
    skipped = [case for case in cases if case.verdict.kind == "given up"]
    counts = {"tests": str(len(cases)), "failures": str(len(failed)), "skipped": str(len(skipped)), "errors": "0"}
    suite = xml.Element("testsuite", name=name, time=f"{sum(it.seconds for it in cases):.3f}", **counts)
    for case in cases:
        one = xml.SubElement(suite, "testcase", classname=name, name=case.name(), time=f"{case.seconds:.3f}")
        if case.verdict.is_failure:
            xml.SubElement(one, "failure", message=case.short_verdict.said, type=case.verdict.kind).text = told(case)
        elif case.verdict.kind == "given up":
            xml.SubElement(one, "skipped", message=case.verdict.said)
    xml.indent(suite)
    xml.ElementTree(suite).write(path, encoding="utf-8", xml_declaration=True)
