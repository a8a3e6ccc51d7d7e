"""A player: a program that plays scripts on some heap."""
import dataclasses
import re
import signal
import subprocess

# The words of commands, by the version of scripts from which on they are there.
WORDS = {
    1: "int move drop alloc allocmaj load store ephe set_key unset_key get_key check_key set_data unset_data get_data check_data"
    " finalise finalise_last poll minor major full_major".split(),
    2: ["raw", "cas"],
    3: ["spawn", "argument", "result", "join"],
}
REPLY = re.compile(r"ok|type|bounds|none|yes|no|full|int (0|-?[1-9]\d*)|blk \d+:\d+|live \d+ \d+|fin \d+ \d+:\d+|last \d+")
RAN = ("fin ", "last ")


class NoPlayer(Exception):
    """The player can't be started, or doesn't say what it can."""


@dataclasses.dataclass
class Can:
    """What a player says that it can do."""

    name: str
    versions: list
    domains: int = 8
    profile: str = "strict"
    without: frozenset = frozenset()
    alone: frozenset = frozenset()

    def words(self, version, domains):
        """The commands that it can do in a script of this version and so many domains."""
        known = [word for since, words in WORDS.items() if since <= version for word in words]
        missing = self.without | (self.alone if domains > 1 else frozenset())
        return {word for word in known if word not in missing}


@dataclasses.dataclass
class Played:
    """What a player has done with a script: its output, or why that is none."""

    output: str
    fault: str = ""


class Player:
    def __init__(self, words, seconds):
        self.words, self.seconds = words, seconds
        self.can = self.asked()

    def asked(self):
        """What the player answers to `can`."""
        try:
            ran = subprocess.run([*self.words, "can"], stdin=subprocess.DEVNULL, capture_output=True, text=True, timeout=self.seconds, check=False)
        except (OSError, subprocess.TimeoutExpired, UnicodeDecodeError) as why:
            raise NoPlayer(f"the player can't be asked what it can: {why}") from why
        said = {line.split()[0]: line.split()[1:] for line in ran.stdout.splitlines() if line.strip()}
        known = {"name", "versions", "domains", "profile", "without", "alone"}
        if ran.returncode or not said.get("versions") or set(said) - known:
            raise NoPlayer(f"the player doesn't say what it can: to `can` it answers with status {ran.returncode}\n{ran.stdout}{ran.stderr}")
        return Can(
            " ".join(said.get("name", self.words[:1])),
            sorted(int(it) for it in said["versions"]),
            int(*said.get("domains", ["8"])),
            *said.get("profile", ["strict"]),
            frozenset(said.get("without", [])),
            frozenset(said.get("alone", [])),
        )

    def play(self, script, domains, sections):
        """Has a script played whose sections have these commands."""
        try:
            ran = subprocess.run(
                [*self.words, "run", "--domains", str(domains)], input=script.encode(), capture_output=True, timeout=self.seconds, check=False
            )
        except subprocess.TimeoutExpired as it:
            return Played((it.stdout or b"").decode(errors="replace"), f"it hangs: it hadn't ended after {self.seconds} s")
        output = ran.stdout.decode(errors="replace")
        if ran.returncode:
            how = f"signal {signal.Signals(-ran.returncode).name}" if ran.returncode < 0 else f"status {ran.returncode}"
            return Played(output, f"it crashes: {how}. {last_line(ran.stderr)}".rstrip(". ") + ".")
        return Played(output, rubbish(output, sections))


def last_line(stderr):
    lines = stderr.decode(errors="replace").strip().splitlines()
    return lines[-1][:200] if lines else ""


def rubbish(output, sections):
    """What is wrong with the form of an output, whatever its replies say; nothing where its form is right."""
    lines = output.split("\n")
    if lines.pop():
        return "it prints rubbish: its last line has no line feed"
    at = 0
    for number, commands in enumerate(sections):
        if lines[at : at + 1] != [f"domain {number}"]:
            return f"it prints rubbish: line {at + 1} isn't `domain {number}`"
        at += 1
        replies = 0
        while at < len(lines) and not lines[at].startswith("domain "):
            if not REPLY.fullmatch(lines[at]):
                return f"it prints rubbish: line {at + 1} is no reply: {lines[at][:60]!r}"
            replies += not lines[at].startswith(RAN)
            at += 1
        if replies != len(commands):
            return f"it prints rubbish: {replies} replies to the {len(commands)} commands of domain {number}"
    return "" if at == len(lines) else f"it prints rubbish: line {at + 1} stands behind the last section"
