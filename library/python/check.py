#!/usr/bin/env python3
"""Tries the module: each call, and each refusal that a program can come to. Ends with 0 where all is as it should be."""
import contextlib
import io

import camlheap
from camlheap import Reply
from camlheap.__main__ import tour


def refusal(call, *words):
    """The class of what a call raises, or None."""
    try:
        call(*words)
    except camlheap.Refused as why:
        assert str(why)
        return type(why)
    return None


def maps():
    """Keys are bound, found, bound anew and taken out, and what a key is bound to goes with it."""
    (domain,) = camlheap.start(ephes=300)
    held = domain.make_map(7)
    domain.perform("alloc", 6, 0, 100)
    for key in range(100):
        domain.perform("alloc", 1, 0, 1)
        domain.perform("store", 6, key, 1)
        domain.perform("int", 2, key)
        assert held.put(1, 2) == Reply("ok")
    domain.perform("full_major")
    for key in range(100):
        domain.perform("load", 1, 6, key)
        assert domain.map(7).get(3, 1) == Reply("int", value=key) == domain.show(3)
        assert held.take(1) == Reply("ok") and held.take(1) == held.get(3, 1) == Reply("none")
    assert held.get(3, 2) == held.put(2, 1) == held.take(2) == Reply("type")
    assert refusal(held.get, 8, 1) == refusal(held.get, 3, 256) == refusal(domain.make_map, -1) == camlheap.NoRegister
    domain.perform("alloc", 2, 0, 1)
    domain.perform("finalise_last", 2, 9)
    assert held.put(1, 2) == Reply("ok")
    for registers in [(2,), (1, 6)]:
        domain.perform("poll")
        assert domain.ran() == []
        for it in registers:
            domain.perform("drop", it)
        domain.perform("full_major")
    domain.perform("poll")
    assert domain.ran() == [Reply("last", number=9)]
    domain.finish()


def sweeps():
    """A map with few keys that live never fills up, however many die."""
    (domain,) = camlheap.start(ephes=200)
    held = domain.make_map(7)
    for value in range(2000):
        domain.perform("alloc", 1, 0, 1)
        domain.perform("int", 2, value)
        assert held.put(1, 2) == Reply("ok")
    domain.perform("full_major")
    assert held.count() == Reply("int", value=1) and held.sweep().kind == "int"
    domain.perform("drop", 1)
    domain.perform("full_major")
    assert held.clean() == Reply("yes") and domain.map(6).count() == Reply("type")
    domain.finish()


def refuses_numbers_of_callables():
    """A finaliser's own number ends where those of callables begin, and what can't be called is no finaliser."""
    (domain,) = camlheap.start()
    domain.perform("alloc", 1, 0, 1)
    assert refusal(domain.perform, "finalise_last", 1, 1 << 31) == refusal(domain.perform, "finalise", 1, 1 << 31, 2) == camlheap.Unfit
    with contextlib.suppress(TypeError):
        domain.finalise_last(1, 7)
        raise AssertionError
    with domain.resting():
        assert refusal(domain.perform, "poll") == camlheap.NoDomain
    assert len(domain.make_map(2)) == 0 and domain.perform("poll") == Reply("ok")
    domain.finish()


def with_finalisers(called):
    """A domain in which finaliser 9 waits, one whose callable raises, and one that is kept in `called`."""
    (domain,) = camlheap.start()
    domain.make_map(5)
    for words in (("alloc", 2, 0, 1), ("alloc", 1, 0, 1), ("finalise_last", 1, 9)):
        domain.perform(*words)
    assert domain.finalise_last(1, lambda _: 1 // 0) == domain.finalise_last(1, called.append) == Reply("ok")
    assert domain.finalise_last(3, called.append) == Reply("type")
    domain.perform("drop", 1)
    domain.perform("full_major")
    return domain


def tells_each_once():
    """Whatever the domain does between, what ran is told, and called."""
    for act in (lambda it: None, lambda it: [it.turn() for _ in range(10)], lambda it: it.map(5).put(2, 2), lambda it: (it.rest(), it.resume())):
        called = []
        domain = with_finalisers(called)
        with contextlib.redirect_stderr(io.StringIO()) as said:
            act(domain)
            for _ in range(4):
                domain.perform("poll")
        assert "ZeroDivisionError" in said.getvalue()
        assert domain.ran() == [Reply("last", number=9)] and domain.ran() == [] and [it.kind for it in called] == ["last"]
        domain.finish()


def goes_on_without_it():
    """However a domain was left, the others go on and end."""

    def forgets(domains):
        del domains[0]

    def raises(domains):
        with contextlib.suppress(KeyError), domains.pop(0) as it:
            it.perform("alloc", 1, 0, 1)
            raise KeyError

    def rests(domains):
        domains[0].rest()
        domains.pop(0).leave()

    for leaves in (forgets, raises, rests):
        domains = camlheap.start(2)
        leaves(domains)
        assert domains[0].perform("full_major").kind == "live"
        domains[0].finish()


def main():
    for place, numbers in enumerate([(9,), (1, 5000), (1, 4096, 19), (1, 4096, 64, 200001), (1, 4096, 64, 1, 2**32)]):
        try:
            camlheap.start(*numbers)
            assert False
        except camlheap.Outside as why:
            assert why.field == camlheap.Outside.FIELDS[place] and why.code == 33 + place
    (domain,) = camlheap.start(finals=1, ephes=1)
    block = Reply("blk", domain=0, serial=1)
    assert domain.perform("alloc", 1, 0, 2) == block == domain.show(1)
    assert domain.perform("int", 2, -(2**62)) == Reply("ok")
    assert domain.perform("store", 1, 0, 2) == Reply("ok")
    assert str(domain.perform("load", 3, 1, 0)) == f"int {-(2**62)}"
    for words in [("copy", 1), ("int", 2, 2**62), ("int", 2, 2**70), ("move", 16, 0), ("move", 256, 0), ("move", -1, 0), ("raw", 1, 507, 1)]:
        assert refusal(domain.perform, *words) == camlheap.Unfit
    assert refusal(domain.show, 16) == refusal(domain.show, 256) == refusal(domain.show, -1) == camlheap.NoRegister
    assert domain.why(0, 1) == camlheap.Why("way", 1) and refusal(domain.why, 0, 1, 1) == camlheap.MoreBlocks
    assert domain.why(0, 9) == camlheap.Why("nothing") and refusal(domain.why, 0, -1) == camlheap.Unfit
    domain.perform("finalise_last", 1, 7)
    domain.perform("ephe", 4, 1)
    assert domain.why(0, 9) == camlheap.Why("no_field")
    assert refusal(domain.perform, "finalise", 1, 8, 5) == camlheap.NoFinaliser
    assert refusal(domain.perform, "ephe", 5, 1) == camlheap.NoEphemeron
    assert domain.stats().labels == 2 and domain.stats().lasts == 1 and domain.stats().ephemerons == 1
    domain.perform("drop", 1)
    assert domain.perform("full_major").kind == "live"
    domain.perform("poll")
    assert domain.ran() == [Reply("last", number=7)] and domain.stats().waiting == 0
    domain.close()
    assert refusal(domain.close) == refusal(domain.perform, "poll") == camlheap.Closed
    while not domain.turn():
        pass
    domain.free()
    assert refusal(domain.stats) == refusal(domain.turn) == refusal(domain.show, 0) == camlheap.NoDomain and domain.ran() == []
    first, second = camlheap.start(2)
    first.rest()
    assert second.perform("full_major").kind == "live" and refusal(first.turn) == camlheap.NoDomain
    first.resume()
    assert refusal(first.resume) == camlheap.Refused
    first.close(), second.close()
    while not first.turn() & second.turn():
        pass
    first.free(), second.free()
    maps()
    sweeps()
    refuses_numbers_of_callables()
    tells_each_once()
    goes_on_without_it()
    typed = iter(["", "alloc 99 0 1", "nonsense", "int 1 x", "stats", "help", *[""] * 12])
    tour(lambda offered: next(typed))
    print("ok")


if __name__ == "__main__":
    main()
