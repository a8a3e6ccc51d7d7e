"""A heap with the rules of OCaml 5's, proved, from Python, by ctypes over libcamlheap.so.

    (domain,) = camlheap.start()
    domain.perform("alloc", 1, 0, 2)                    # Reply(kind='blk', domain=0, serial=1)
    domain.finalise_last(1, lambda it: print("gone"))
    domain.perform("drop", 1)
    domain.perform("full_major")                        # Reply(kind='live', blocks=1, words=18)
    domain.perform("poll")                              # prints gone
    domain.finish()

`FORMS` has each command with its numbers, in their order: `dst`, `a` and `b` are registers 0 to 15, `a` that of the block that is
used; `n` is a field, or how many there are. docs/MODEL.md says what each does and answers. A command that can't be done as it is
asked answers `type`, `bounds` or `full`, and nothing is raised: look at the `kind` of its reply. What wasn't taken at all is raised
as a class below `Refused`, and changes nothing.

`perform` waits for its reply: where a heap has several domains, a thread for each has to make commands or `turn` meanwhile, or the
domain rests (`resting`) or is left (`with`, or `leave`). One thread that makes commands on two domains waits for itself. With
CAMLHEAP_WATCH=S in the environment a wait says on standard error, once, that it has lasted S seconds.

`python3 -m camlheap` shows a heap step by step, and makes what is typed. The library is the file that the environment names by
CAMLHEAP_LIBRARY, as /usr/local/lib/libcamlheap.so.1, or that of the wheel, or that of `make -C library`, or what the loader finds."""

import os
import sys
import time
import traceback
import weakref
from collections.abc import Callable, Iterator
from contextlib import contextmanager
from dataclasses import dataclass
from itertools import count
from typing import NoReturn, Self

from . import _c
from ._c import AGAIN, DONE, ENDED, NO_EPHEMERON, OUTSIDE, WAITING

# The operands of each command, in the order of its line; a command's place is its number. _ROOM is what fits into them.
FORMS = {
    "int": "dst value", "move": "dst a", "drop": "dst", "alloc": "dst tag n", "allocmaj": "dst tag n", "raw": "dst tag n",
    "load": "dst a n", "store": "a n b", "cas": "a n dst b", "ephe": "dst n", "set_key": "a n b", "unset_key": "a n",
    "get_key": "dst a n", "check_key": "a n", "set_data": "a b", "unset_data": "a", "get_data": "dst a", "check_data": "a",
    "poll": "", "minor": "", "major": "", "full_major": "", "finalise": "a number dst", "finalise_last": "a number",
}  # fmt: skip
_OPERATIONS = {word: number for number, word in enumerate(FORMS)}
_ROOM = {"dst": _c.U8, "a": _c.U8, "b": _c.U8, "tag": _c.U8, "n": _c.U16, "number": _c.U32, "value": _c.I64}
_REGISTERS = ("dst", "a", "b")
# The word of each kind of reply, and the fields that it has, in the order of its line.
_KINDS = [
    ("ok", ""), ("int", "value"), ("blk", "domain serial"), ("type", ""), ("bounds", ""), ("none", ""), ("yes", ""), ("no", ""),
    ("full", ""), ("live", "blocks words"), ("fin", "number domain serial"), ("last", "number"),
]  # fmt: skip
# The finalisers with a callable have the numbers from this one on.
_CALLED = 1 << 31


class Refused(Exception):
    """Why a call wasn't done; nothing has changed. `code` is the library's number for it."""

    def __init__(self, code: int, text: str | None = None):
        self.code = code
        super().__init__(text or self.__doc__)


class NoDomain(Refused):
    """The domain was freed, or it rests."""


class Closed(Refused):
    """The domain takes no command any more."""


class Busy(Refused):
    """The command before isn't made yet: `go_on` with it."""


class Unfit(Refused):
    """There is no such command, or a register or number is outside its range."""


class NoEphemeron(Refused):
    """There is no room for the ephemeron: `start(ephes=..)` says for how many there is."""


class NoFinaliser(Refused):
    """There is no room for the finaliser: `start(finals=..)` says for how many there is."""


class NoLabel(Refused):
    """No label is left."""


class NoRegister(Refused):
    """There is no such register, or none for this call: a map, its keys and its data are in registers below 8."""


class OutOfMemory(Refused):
    """Memory ran out, and nothing was started."""


class TooFewHandles(Refused):
    """There are fewer handles than domains."""


class MoreBlocks(Refused):
    """There are more blocks than were to be looked into."""


class NotNow(Refused):
    """A pause is wanted, or another domain has won each time: take a `turn`, and ask anew. Where that goes on there is no room for a
    block: let go of some, or start with more `pools`."""


class Outside(Refused):
    """A number of the heap's size is outside its range; `field` names it."""

    FIELDS = [it[0] for it in _c.Config._fields_]
    RANGES = (
        "1 to 8",
        "4096 to 65536 in steps of 4096",
        "domains * (minor_words // 4096 + 18) + 1 to 2048",
        "0 to 200000",
        "0 to 200000",
    )

    def __init__(self, code: int):
        self.field = self.FIELDS[code - OUTSIDE - 1]
        super().__init__(code, f"{self.field} is outside its range: {self.RANGES[code - OUTSIDE - 1]}")


# The classes of refusals, by their numbers from 16 on.
_CAUSES = (NoDomain, Closed, Busy, Unfit, NoEphemeron, NoFinaliser, NoLabel, NoRegister, OutOfMemory, TooFewHandles, MoreBlocks)


def _refuse(code: int) -> NoReturn:
    if code > OUTSIDE:
        raise Outside(code)
    place = code - _c.NO_DOMAIN
    raise _CAUSES[place](code) if place < len(_CAUSES) else Refused(code, "the domain doesn't rest")


@dataclass(frozen=True)
class Reply:
    """A reply: the word of its kind, and the numbers that this kind has. `str` gives the line of a run's output."""

    kind: str
    value: int | None = None
    domain: int | None = None
    serial: int | None = None
    number: int | None = None
    blocks: int | None = None
    words: int | None = None

    def __repr__(self) -> str:
        return f"Reply({', '.join(f'{name}={it!r}' for name, it in vars(self).items() if it is not None)})"

    def __str__(self) -> str:
        label = f"{self.domain}:{self.serial}" if self.serial is not None else ""
        numbers = [self.number, self.value, self.blocks, self.words]
        shown = [str(it) for it in numbers if it is not None]
        return " ".join([self.kind, *shown, *([label] if label else [])])


@dataclass(frozen=True)
class Why:
    """What leads to a block: `kind` is `way`, with its register and fields, `nothing`, or `no_field`, where an ephemeron is there whose data may."""

    kind: str
    register: int | None = None
    fields: tuple[int, ...] = ()


@dataclass(frozen=True)
class Stats:
    """What a domain counts: labels that it has given out, words of its minor area that its young blocks take, fields that it
    remembers, ephemerons, registrations of both kinds that don't wait yet, finalisers that wait, and arrivals at the barrier."""

    labels: int
    young_words: int
    remembered: int
    ephemerons: int
    finals: int
    lasts: int
    waiting: int
    arrivals: int


def _reply(raw: _c.Reply) -> Reply:
    kind, names = _KINDS[raw.kind]
    return Reply(kind, **{name: getattr(raw, name) for name in names.split()})


def _fits(number: object, room) -> bool:
    return isinstance(number, int) and room(number).value == number


def _command(word: str, numbers: tuple[int, ...]) -> _c.Command:
    """The command of a line's word and numbers, each of which fits its operand."""
    if word not in FORMS:
        raise Unfit(19, f"no such command: {word}")
    names = FORMS[word].split()
    if len(names) != len(numbers):
        raise TypeError(f"{word} takes {len(names)} numbers: {FORMS[word]}")
    for name, number in zip(names, numbers):
        if not _fits(number, _ROOM[name]) or (name in _REGISTERS and number > 15):
            raise Unfit(19, f"{name} of {word} can't be {number!r}")
    return _c.Command(op=_OPERATIONS[word], **dict(zip(names, numbers)))


class WeakMap:
    """A weak map in a register of a domain, which `Domain.make_map` makes and `Domain.map` finds. It keeps neither its keys nor, for a key
    that nothing else leads to, what the key is bound to. It is a block: domains share one through a field, and use it by these calls
    alone. Keys and data are in registers below 8. Keep nothing in registers 8 to 15 meanwhile: `get` and `take` use 8 to 11, the others
    may empty 8 to 15. A call waits for other domains in a pause, and may collect where it lacks room. Each key that lives takes an
    ephemeron."""

    def __init__(self, domain: "Domain", register: int):
        self._domain, self.register = domain, register

    def get(self, dst: int, key: int) -> Reply:
        """What the key in a register is bound to, into another: `int` or `blk`; `none` where it isn't, and `type` where it is no block."""
        return self._domain._ask("get", dst, self.register, key)

    def put(self, key: int, item: int) -> Reply:
        """Binds the key in a register to what another holds: `ok`, or `type` where the key is no block. Where room is short it sweeps
        and collects first; then `NoEphemeron` where more keys live than there is room for (one that is bound anew takes a place too),
        and `NotNow` where there is none for a block. No binding has changed then."""
        return self._domain._walk("bind", self.register, key, item)

    def sweep(self) -> Reply:
        """Takes out what is left of keys that are dead: `int`, how much; or `type` where the register holds no map. `put` does so by
        itself where room is short. Registers 8 to 15 are used between."""
        return self._domain._walk("sweep", self.register)

    def clean(self) -> Reply:
        """The same of a map that no other domain uses meanwhile: blocks of it that hold nothing go too. `yes` where the map holds
        nothing then, or `no`."""
        return self._domain._walk("clean", self.register)

    def count(self) -> Reply:
        """How many keys are bound: `int`, or `type` where the register holds no map. A dead key counts until a collection has found it."""
        return self._domain._walk("count", self.register)

    def __len__(self) -> int:
        made = self.count()
        if made.value is None:
            raise TypeError(f"register {self.register} holds no weak map")
        return made.value

    def __bool__(self) -> bool:
        return True

    def take(self, key: int) -> Reply:
        """Takes out what the key in a register is bound to: `ok`; `none` where it isn't; or `type`."""
        return self._domain._ask("take", self.register, key)


_WATCH = os.environ.get("CAMLHEAP_WATCH")


class _Watch:
    """Says on standard error, once, that a wait has lasted as many seconds as CAMLHEAP_WATCH names."""

    def __init__(self):
        self._seconds, self._since = _WATCH, time.monotonic()

    def look(self) -> None:
        if self._seconds and time.monotonic() - self._since >= float(self._seconds):
            said = f"a domain has waited {self._seconds} seconds for others of its heap"
            print(f"camlheap: {said}: is each turned by a thread, at rest, or left?", file=sys.stderr)
            self._seconds = None


def _free(library, raw: _c.Domain, bed: _c.Domain) -> None:
    library.camlheap_free(raw)
    while library.camlheap_free_bed(bed) == AGAIN:
        time.sleep(0)


def _leave(library, raw: _c.Domain, bed: _c.Domain) -> None:
    """Leaves a domain to those that wait for it, also one that rests, and frees what is left of its handles."""
    while AGAIN in (library.camlheap_resume(raw, bed), library.camlheap_leave(raw, bed)):
        time.sleep(0)
    _free(library, raw, bed)


class Domain:
    """A domain of a heap, with a bed, which `start` makes. One thread at a time calls on it. After `with`, after `leave`, and where
    nothing leads to it any more, it is left: the other domains turn it to its end where they wait for it."""

    def __init__(self, library, raw: _c.Domain, bed: _c.Domain):
        self._library, self._raw, self._bed = library, raw, bed
        self._calls: dict[int, Callable[[Reply], object]] = {}
        self._numbers = count(_CALLED)
        self._told: list[Reply] = []
        self._left = weakref.finalize(self, _leave, library, raw, bed)
        self._left.atexit = False

    def __enter__(self) -> Self:
        return self

    def __exit__(self, *_) -> None:
        """Leaves the domain, also behind an exception. Finalisers that haven't run yet are called no more: `finish` at the end of the
        block, or a `poll` behind a collection, calls them."""
        self.leave()

    def leave(self) -> None:
        """No command comes any more, and the domain is left to the others: they turn it where they wait, and its end is none of this
        thread's. Nobody hears of finalisers that run then. It changes nothing behind `finish` or an earlier `leave`."""
        if self._raw.full:
            self._hear()
        self._left()

    def _hear(self) -> None:
        """Takes the finalisers that have run, and has each callable called, or keeps what it tells. What a callable raises is reported
        on standard error."""
        reply = _c.Reply()
        while self._library.camlheap_take_ran(self._raw, reply) == DONE:
            ran = _reply(reply)
            call = self._calls.pop(ran.number, None)
            if call is None:
                self._told.append(ran)
                continue
            try:
                call(ran)
            except Exception:
                print(f"camlheap: the callable of a finaliser raised, {ran}", file=sys.stderr)
                traceback.print_exc()

    def _wait(self, watch: _Watch) -> None:
        watch.look()
        if self._library.camlheap_attend(self._bed) != AGAIN:
            time.sleep(0)

    def _await(self, told: int, reply: _c.Reply) -> Reply:
        """Goes on with a command until it is made, from what the call that began it has answered."""
        watch = None
        while told in (AGAIN, WAITING):
            if told == WAITING:
                watch = watch or _Watch()
                self._wait(watch)
            told = self._library.camlheap_run(self._raw, 64, reply)
        if told != DONE:
            _refuse(told)
        made = _reply(reply)
        self._hear()
        return made

    def perform(self, word: str, *numbers: int) -> Reply:
        """Makes a command, and answers its reply, as `perform("load", 3, 1, 0)`. Waits for other domains in a pause. Where an exception
        comes while it waits, as by ^C, `go_on` answers the reply. A finaliser's number is below 2**31: the others are those of
        `finalise`."""
        command = _command(word, numbers)
        if command.number >= _CALLED:
            raise Unfit(19, f"number of {word} can't be {command.number}")
        return self._make(command)

    def _make(self, command: _c.Command) -> Reply:
        reply = _c.Reply()
        return self._await(self._library.camlheap_call(self._raw, command, 64, reply), reply)

    def go_on(self) -> Reply:
        """Goes on with the command that an exception has interrupted in `perform`, and answers its reply."""
        reply = _c.Reply()
        told = self._library.camlheap_run(self._raw, 64, reply)
        if told in (_c.HUNGRY, ENDED):
            raise Refused(told, "no command was interrupted")
        return self._await(told, reply)

    def _register(self, word: str, call: Callable[[Reply], object], *numbers: int) -> Reply:
        if not callable(call):
            raise TypeError(f"a finaliser calls a function, and {call!r} is none")
        number = next(self._numbers)
        self._calls[number] = call
        made = None
        try:
            made = self._make(_command(word, (numbers[0], number, *numbers[1:])))
        finally:
            if made != Reply("ok"):
                self._calls.pop(number, None)
        return made

    def finalise(self, item: int, dst: int, call: Callable[[Reply], object]) -> Reply:
        """Has `call` be called with the reply `fin`, on the thread that calls on this domain, once nothing leads to the block in `item`
        any more; register `dst` holds it again then. A collection only finds that; the finaliser runs before the next command or in a
        turn, and each registration is called once, behind that. The number in the reply is the wrapper's own. `ok`, or `type` where
        `item` holds no block."""
        return self._register("finalise", call, item, dst)

    def finalise_last(self, item: int, call: Callable[[Reply], object]) -> Reply:
        """The same with the reply `last`, once the block is gone for good."""
        return self._register("finalise_last", call, item)

    def ran(self) -> list[Reply]:
        """The finalisers without a callable, which `perform("finalise", ..)` registers, that have run and weren't told yet, in order.
        None is lost, in whichever call it ran."""
        self._hear()
        found, self._told = self._told, []
        return found

    def _walk(self, call: str, *registers: int) -> Reply:
        """A call on a map that makes commands until it is done."""
        if not all(_fits(it, _c.U8) for it in registers):
            raise NoRegister(23)
        reply = _c.Reply()
        told = getattr(self._library, f"camlheap_wrapped_map_{call}")(self._raw, self._bed, *registers, reply)
        self._hear()
        if told == AGAIN:
            raise NotNow(told)
        return _reply(reply) if told == DONE else _refuse(told)

    def _ask(self, call: str, *registers: int) -> Reply:
        """Asks a call on a map anew while that helps: behind turns, and then behind collections, which make room."""
        if not all(_fits(it, _c.U8) for it in registers):
            raise NoRegister(23)
        reply = _c.Reply()
        told = self._ask_often(call, registers, reply)
        for room in ("minor", "full_major"):
            if told in (AGAIN, NO_EPHEMERON):
                self.perform(room)
                told = self._ask_often(call, registers, reply)
        if told == AGAIN:
            raise NotNow(told)
        if told != DONE:
            _refuse(told)
        made = _reply(reply)
        self._hear()
        return made

    def _ask_often(self, call: str, registers: tuple[int, ...], reply: _c.Reply) -> int:
        """Asks it a few times, each time behind as many turns as there is something to do for."""
        watch = _Watch()
        for _ in range(8):
            told = getattr(self._library, f"camlheap_map_{call}")(self._raw, *registers, reply)
            if told != AGAIN:
                break
            while (turned := self._library.camlheap_turn(self._raw)) in (AGAIN, WAITING):
                if turned == WAITING:
                    self._wait(watch)
        return told

    def make_map(self, dst: int) -> WeakMap | None:
        """A new `WeakMap` into a register below 8, or None where there is no room."""
        return WeakMap(self, dst) if self._ask("make", dst).kind == "blk" else None

    def map(self, register: int) -> WeakMap:
        """The weak map in a register below 8, which this domain or another has made. The register isn't looked at: where it holds no
        map, `get` and `take` answer `none`, and `put` raises `NotNow`; `count` and `sweep` tell, by `type`."""
        return WeakMap(self, register)

    def show(self, register: int) -> Reply:
        """What a register holds: `int`, `blk` or `none`."""
        reply = _c.Reply()
        told = self._library.camlheap_show(self._raw, register if _fits(register, _c.U8) else 255, reply)
        return _reply(reply) if told == DONE else _refuse(told)

    def stats(self) -> Stats:
        """What the domain counts. It costs no look at the heap."""
        counts = _c.Counts()
        told = self._library.camlheap_stats(self._raw, counts)
        return Stats(*(getattr(counts, it[0]) for it in _c.Counts._fields_)) if told == DONE else _refuse(told)

    def why(self, maker: int, serial: int, most: int = 100000) -> Why:
        """What leads to the block with this label from registers 0 to 13, through fields. It looks into at most `most` blocks, by loads
        into registers 14 and 15. It is exact where no other domain makes a command meanwhile."""
        if not all(_fits(it, _c.U32) for it in (maker, serial, most)):
            raise Unfit(19)
        way, room = _c.Way(), 64
        while True:
            fields = (_c.U16 * room)()
            told = self._library.camlheap_why(self._raw, maker, serial, most, way, fields, room)
            if told == AGAIN:
                raise NotNow(told)
            if told != DONE:
                _refuse(told)
            if way.kind:
                return Why("nothing" if way.kind == 1 else "no_field")
            if way.fields <= room:
                return Why("way", way.register, tuple(fields[: way.fields]))
            room = way.fields

    def turn(self) -> bool:
        """One turn: whether the traces of all domains have ended. A thread with no command calls it now and then."""
        told = self._library.camlheap_turn(self._raw)
        if told >= _c.NO_DOMAIN:
            _refuse(told)
        self._hear()
        return told == ENDED

    def close(self) -> None:
        """No command comes any more. Turns end the trace."""
        if told := self._library.camlheap_close(self._raw):
            _refuse(told)

    def free(self) -> None:
        """Frees the domain. Do it once `turn` has answered True: the others of the heap wait for it else."""
        self._left.detach()
        _free(self._library, self._raw, self._bed)

    def rest(self) -> None:
        """Lets others turn the domain where they wait for it, until `resume`; it can do nothing else meanwhile. A thread that blocks
        elsewhere, on a lock, a barrier, a queue, a `join` or a `sleep`, does so first: else the others wait for it in their next pause."""
        while told := self._library.camlheap_rest(self._raw, self._bed):
            time.sleep(0) if told == AGAIN else _refuse(told)

    def resume(self) -> None:
        """Takes the domain back. Its finalisers may have run."""
        while told := self._library.camlheap_resume(self._raw, self._bed):
            time.sleep(0) if told == AGAIN else _refuse(told)
        self._hear()

    @contextmanager
    def resting(self) -> Iterator[None]:
        """Rests while the block of a `with` goes on, as `with domain.resting(): barrier.wait()`."""
        self.rest()
        try:
            yield
        finally:
            self.resume()

    def finish(self) -> None:
        """Closes the domain, turns it until all have ended, and frees it."""
        self.close()
        watch = _Watch()
        while not self.turn():
            self._wait(watch)
        self.free()


def start(domains: int = 1, minor_words: int = 4096, pools: int = 64, finals: int = 16, ephes: int = 64) -> list[Domain]:
    """Starts a heap, and answers its domains in order. It has so many domains, words in the minor area of each, pools of 4096 words,
    and in each domain room for so many finalisers that are registered or wait, and for so many ephemerons, and so for living keys of
    weak maps (`Outside.RANGES`). The room without a number is for a trial: 16 finalisers, and 64 keys."""
    numbers = (domains, minor_words, pools, finals, ephes)
    wrong = [place for place, number in enumerate(numbers) if not _fits(number, _c.U32)]
    if wrong or domains > 8:
        raise Outside(OUTSIDE + 1 + min(wrong or [0]))
    library, handles, beds = _c.library(), (_c.Domain * domains)(), (_c.Domain * domains)()
    told = library.camlheap_start(_c.Config(*numbers), handles, domains) or library.camlheap_first_bed(beds)
    for it in beds[1:]:
        told = told or library.camlheap_another_bed(beds, it)
    return [Domain(library, *it) for it in zip(handles, beds)] if told == DONE else _refuse(told)
