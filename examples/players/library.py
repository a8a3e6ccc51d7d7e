#!/usr/bin/env python3
"""Plays scripts on this heap through the library for Python, a thread for each domain: `library.py can`, `library.py run --domains N`."""
import os
import sys
import threading
import time

TOP = os.path.dirname(os.path.dirname(os.path.dirname(os.path.realpath(__file__))))
sys.path.insert(0, f"{TOP}/library/python")
import camlheap


class Meeting:
    """A point that all domains come to. One that waits takes turns, since others may want a collection."""

    def __init__(self, domains):
        self.domains, self.come, self.lock = domains, 0, threading.Lock()

    def wait(self, domain):
        with self.lock:
            self.come += 1
            until = -(-self.come // self.domains) * self.domains
        while self.come < until:
            domain.turn()
            time.sleep(0)


def trace_of(number, domain, commands, lines, meeting):
    """Makes the commands of a section, and then has all run that is to run before the domain ends."""
    for word, *numbers in commands:
        reply = domain.perform(word, *map(int, numbers))
        lines += [*map(str, domain.ran()), str(reply)]
    meeting.wait(domain)
    # Behind a complete collection no other goes on.
    if number == 0:
        domain.perform("full_major")
    meeting.wait(domain)
    ran = domain.ran()
    while ran:
        lines += map(str, ran)
        domain.perform("poll")
        ran = domain.ran()
    meeting.wait(domain)
    domain.finish()


def play(text, count):
    sections = [[] for _ in range(count)]
    for line in text.splitlines()[1:]:
        word, *numbers = line.split()
        if word == "domain":
            here = sections[int(numbers[0])]
        else:
            here.append((word, *numbers))
    most = max(16, *map(len, sections))
    domains, lines = camlheap.start(count, 4096, 512, most, most), [[] for _ in sections]
    meeting = Meeting(count)
    threads = [threading.Thread(target=trace_of, args=(*it, meeting)) for it in zip(range(count), domains, sections, lines)]
    for it in threads:
        it.start()
    for it in threads:
        it.join()
    for number, own in enumerate(lines):
        print(f"domain {number}", *own, sep="\n")


if sys.argv[1] == "can":
    print("name this heap, in Python\nversions 1 2\ndomains 8")
else:
    play(sys.stdin.read(), int(sys.argv[3]))
