"""The judge `history_check`, and what it says of an output."""
import dataclasses
import os
import re
import subprocess

import profiles

TOP = os.path.dirname(os.path.dirname(os.path.dirname(os.path.realpath(__file__))))
LEGAL, NONE_FOUND, GAVE_UP = 0, 6, 7


@dataclasses.dataclass
class Judged:
    """What the judge says: its status, its first line, and a legal output that begins as the judged one, where it tells one."""

    status: int
    said: str
    near: str = ""


class NoJudge(Exception):
    """The judge can't be built, or doesn't do its work."""


class Judge:
    """The program, which is proved and built first where that is needed."""

    def __init__(self, is_proved, profile, states):
        if profile not in profiles.PROFILES:
            raise NoJudge(f"there is no profile {profile}; there are {', '.join(profiles.PROFILES)}")
        self.profile = profile
        words = [f"{TOP}/history_check", *([] if is_proved else ["try"]), "--domains", "1"]
        first = subprocess.run(words, input="heap 1\n---\ndomain 0\n", text=True, stdout=subprocess.DEVNULL, check=False)
        if first.returncode != LEGAL:
            raise NoJudge("history_check can't be built")
        # The program itself, once it is built: the launcher looks at each file of its crates.
        built = f"{TOP}/crates/history_check/out/history_check{'' if is_proved else '.unproved'}"
        self.program = os.environ.get("CHECKER") or built
        self.options = ["--states", str(states)]

    def judge(self, script, domains, output):
        """What is said of an output under the profile."""
        return profiles.judge(lambda script, output: self.judge_strictly(script, domains, output), self.profile, script, output)

    def judge_strictly(self, script, domains, output):
        words = [self.program, "--domains", str(domains), *self.options]
        ran = subprocess.run(words, input=f"{script}---\n{output}", capture_output=True, text=True, check=False)
        if ran.returncode not in (LEGAL, NONE_FOUND, GAVE_UP):
            raise NoJudge(f"history_check ends with status {ran.returncode}: {ran.stderr.strip()}")
        said, _, rest = ran.stdout.partition("\n")
        _, found, near = rest.partition("in this output, which is legal:\n")
        return Judged(ran.returncode, said, near if found and ran.returncode != LEGAL else "")

    def is_script(self, script, domains):
        """Whether a script has no fault."""
        words = [self.program, "--domains", str(domains), "--states", "0"]
        ran = subprocess.run(words, input=f"{script}---\n", capture_output=True, text=True, check=False)
        return ran.returncode != 2


def domains_of(script):
    return max(1, len(re.findall(r"^domain ", script, re.M)))
