"""The command `conform`: what its words ask for, one script after the other, and what is told of them."""
import argparse
import os
import sys
import time

import planted
import report
import shrink
from judge import GAVE_UP, LEGAL, NONE_FOUND, TOP, Judge, NoJudge
from player import NoPlayer, Player
from scripts import parts_of, random_script, young_script

LONGEST = 15


class Verdict:
    """What came of a script: `kind` is `legal`, `given up`, `no history`, or how the player failed."""

    def __init__(self, played, judged=None):
        self.output, self.judged = played.output, judged
        said = {LEGAL: "legal", NONE_FOUND: "no history", GAVE_UP: "given up"}
        self.kind = played.fault.partition(":")[0] if played.fault else said[judged.status]
        self.said = played.fault or judged.said
        self.is_failure = self.kind not in ("legal", "given up")


class Trial:
    """A player, its judge, and what the words ask for."""

    def __init__(self, words, player_words, judge=None):
        self.player = Player(player_words, words.seconds)
        self.words = words
        self.profile = words.profile or self.player.can.profile
        self.judge = judge or Judge(not words.unproved, self.profile, words.states)
        self.domains = min(self.player.can.domains, words.domains or 2)

    def script(self, seed):
        """A script, and for how many domains it is."""
        can, place = self.player.can, seed - 1
        if self.words.young:
            domains = 2 + place % max(1, self.domains - 1)
            return young_script(seed, can.versions[0], domains, self.words.lines)
        domains = 1 + place % self.domains
        version = can.versions[place // self.domains % len(can.versions)]
        if version == 3 and domains == 1:
            version = can.versions[0]
        return random_script(seed, version, domains, can.words(version, domains), self.words.lines)

    def verdict(self, script):
        _, sections = parts_of(script)
        played = self.player.play(script, len(sections), sections)
        if played.fault:
            return Verdict(played)
        return Verdict(played, self.judge.judge(script, len(sections), played.output))

    def fails_as(self, script, kind):
        """The verdict of a script where it fails in this way; with several domains it is tried a few times."""
        _, sections = parts_of(script)
        if not sections or not self.judge.is_script(script, len(sections)):
            return None
        for _ in range(1 if len(sections) == 1 else 8):
            verdict = self.verdict(script)
            if verdict.kind == kind:
                return verdict
        return None

    def shortest(self, script, verdict, progress):
        """The shortest script that still fails so, with what came of it."""
        found = [(script, verdict)]

        def fails(shorter):
            progress.show(f"making it shorter: {len(found[-1][0].splitlines())} lines")
            failed = self.fails_as(shorter, verdict.kind)
            if failed:
                found.append((shorter, failed))
            return failed is not None

        shrink.shortest(*parts_of(script), fails)
        return found[-1]


class Progress:
    """One line that is written anew, on a terminal alone."""

    def __init__(self):
        self.is_shown, self.at = sys.stderr.isatty(), 0.0

    def show(self, text):
        if self.is_shown and time.monotonic() - self.at > 0.1:
            self.at = time.monotonic()
            print(f"\r\033[Kconform: {text}", end="", file=sys.stderr, flush=True)

    def clear(self):
        if self.is_shown:
            print("\r\033[K", end="", file=sys.stderr, flush=True)


def run(trial, progress):
    """Plays and judges the scripts, and answers the cases, each with its verdict, and the failures with their shortest scripts."""
    words, cases, failures = trial.words, [], []
    for seed in range(words.seed, words.seed + words.runs):
        progress.show(f"{len(cases)} of {words.runs} scripts, {len(failures)} fail")
        begun, script = time.monotonic(), trial.script(seed)
        verdict = trial.verdict(script)
        case = report.Case(seed, script, verdict, time.monotonic() - begun)
        cases.append(case)
        if verdict.is_failure:
            case.short, case.short_verdict = trial.shortest(script, verdict, progress)
            failures.append(case)
            if not words.all:
                break
    progress.clear()
    return cases, failures


def conform(words):
    trial = Trial(words, words.player)
    cases, failures = run(trial, Progress())
    for case in failures:
        print(report.told(case))
        if words.keep:
            report.keep(words.keep, case)
    print(report.summary(trial.player.can.name, trial.profile, cases))
    if words.report:
        report.write_junit(words.report, trial.player.can.name, cases)
    return 1 if failures else 0


def self_test(words):
    """Tries a player for each broken rule. Each is to be found, and its script is to be short."""
    is_well, judge = True, Judge(not words.unproved, "strict", words.states)
    for rule, broken in planted.RULES.items():
        trial = Trial(words, [sys.executable, f"{TOP}/tools/conform/planted.py", rule], judge)
        cases, failures = run(trial, Progress())
        lines = len(failures[0].short.splitlines()) if failures else 0
        is_found = lines and lines <= LONGEST
        is_well = is_well and is_found
        said = f"found by script {len(cases)}, {lines} lines" if lines else f"NOT FOUND in {len(cases)} scripts"
        print(f"{rule:16} {said:30} {broken}{'' if is_found or not lines else ': TOO LONG'}", flush=True)
        if failures and words.keep:
            report.keep(words.keep, failures[0], rule)
    whole = Trial(words, [sys.executable, f"{TOP}/tools/conform/planted.py", "none"], judge)
    cases, failures = run(whole, Progress())
    print(f"{'none':16} {'all legal' if not failures else 'WRONGLY REFUSED':30} no rule is broken, {len(cases)} scripts")
    for case in failures:
        print(report.told(case))
    return 0 if is_well and not failures else 1


def words_given(usage):
    reader = argparse.ArgumentParser(usage=usage.partition("\n\n")[2], add_help=False, allow_abbrev=False)
    for name, of, without in (
        ("domains", int, 0), ("runs", int, 200), ("seed", int, 1), ("profile", str, ""), ("keep", str, ""), ("report", str, ""), ("lines", int, 40),
        ("states", int, 200000), ("seconds", float, 20.0),
    ):  # fmt: skip
        reader.add_argument(f"--{name}", type=of, default=without)
    for name in ("self-test", "young", "all", "unproved", "help"):
        reader.add_argument(f"--{name}", action="store_true")
    reader.add_argument("player", nargs=argparse.REMAINDER)
    words = reader.parse_args()
    is_right = bool(words.player) != words.self_test and 0 <= words.domains <= 8 and words.runs > 0 and words.lines > 0
    if not is_right and not words.help:
        reader.error("a player is wanted, and numbers in their ranges")
    return words


def main(usage):
    words = words_given(usage)
    if words.help:
        print(usage)
        return 0
    try:
        return self_test(words) if words.self_test else conform(words)
    except (NoPlayer, NoJudge) as it:
        print(f"conform: {it}", file=sys.stderr)
        return 2
    except KeyboardInterrupt:
        return 130
