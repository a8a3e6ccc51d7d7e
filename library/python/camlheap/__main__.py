"""Shows a heap step by step, and makes what is typed: `python3 -m camlheap`."""
from collections.abc import Callable

from . import FORMS, Domain, Refused, start

STEPS = [
    ("A block with two fields, in register 1. Its label is 0:1, for good.", "alloc 1 0 2"),
    ("An integer, and a store of it into the block.", "int 2 42"),
    ("", "store 1 0 2"),
    ("", "load 3 1 0"),
    ("An ephemeron with one key: it holds the block weakly.", "ephe 4 1"),
    ("", "set_key 4 0 1"),
    ("A finaliser with the number 7, for when the block is gone.", "finalise_last 1 7"),
    ("A complete collection: register 1 keeps the block.", "full_major"),
    ("", "check_key 4 0"),
    ("Now nothing but the weak key leads to it.", "drop 1"),
    ("", "full_major"),
    ("The key is empty, and the finaliser runs before this command.", "check_key 4 0"),
]


def _line(domain: Domain, line: str) -> str:
    """Makes the command of a line, and answers what is to be printed."""
    word, *numbers = line.split()
    try:
        reply = domain.perform(word, *map(int, numbers))
    except (Refused, TypeError, ValueError) as why:
        return f"  {type(why).__name__}: {why}"
    return "\n".join(f"  {it}" for it in [*domain.ran(), reply])


def _typed(domain: Domain, typed: str) -> str:
    if typed == "help":
        return "\n".join(f"  {word} {numbers}" for word, numbers in FORMS.items())
    return f"  {domain.stats()}" if typed == "stats" else _line(domain, typed)


def tour(ask: Callable[[str], str] = input) -> None:
    """Return makes the step that is offered; another line is made as a command."""
    (domain,) = start()
    print("Return makes the command that is offered; type another, or `stats`, `help`, `quit`.")
    steps = iter(STEPS)
    step = next(steps, None)
    while step:
        text, offered = step
        print(text, end="\n" if text else "")
        try:
            typed = ask(f"[{offered}] ").strip()
        except EOFError:
            break
        if typed == "quit":
            break
        print(_typed(domain, typed or offered))
        if not typed:
            step = next(steps, None)
    domain.finish()


if __name__ == "__main__":
    tour()
