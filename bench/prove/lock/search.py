#!/usr/bin/env python3
"""search.py: goes through all interleavings of a small model of the turn lock, whose steps are those of docs/inside/LOCK.md in their order.

A state is the two words, the slot, and of each thread its place and what it holds. A thread looks for a pause at most PAUSES times, draws its
ticket, looks until it is served, takes the value, puts it back with an entry or without one, and raises the serving number. The slot is plain
memory: to take or to put is a read and then a write, between which others may step. The words count modulo a small number, so they wrap.

In each state it checks that at most one thread is in a turn, that the slot is full exactly while nobody is, that whoever is served holds the
whole history, and that the tickets that wait are those from the turns that are over up to the tickets that were drawn, each once. At the end
each thread's entries are there in order, and no thread is left waiting. Each fault of FAULTS must be found, and so must words that wrap too
soon, at fewer numbers than there are threads.
"""
import sys
from typing import Any, Iterator, NamedTuple, Optional

PAUSES = 2
PAUSE, PAUSE_TOO, DRAW, STORE, LOOK, TAKE, EMPTY, ACT, FIND, PUT, END, OVER = range(12)
IN_TURN = {TAKE, EMPTY, ACT, FIND, PUT, END}
FAULTS = ("served before the value is back", "a ticket by load and store")


class Thread(NamedTuple):
    place: int
    left: int  # turns
    looks: int = 0  # for a pause
    read: Any = None  # the serving number
    ticket: Any = None
    number: Any = None  # how many tickets were drawn before it
    value: Any = None  # while it holds it


class Shared(NamedTuple):
    tickets: int
    serving: int
    slot: Any
    history: Any
    drawn: int  # tickets
    over: int  # turns


State = tuple[Shared, tuple[Thread, ...]]


class Wrong(Exception):
    pass


def steps_of(thread: Thread, shared: Shared, modulus: int, fault: Optional[str], who: int) -> Iterator[tuple[Thread, Shared]]:
    """What the thread may do next: pairs of the thread and the shared part after it. Empty where it can only look again."""
    if thread.place in IN_TURN:
        return steps_in_turn(thread, shared, modulus, fault == FAULTS[0], who)
    return steps_to_turn(thread, shared, modulus, fault == FAULTS[1])


def steps_to_turn(thread: Thread, shared: Shared, modulus: int, is_torn: bool) -> Iterator[tuple[Thread, Shared]]:
    place, left, looks, read, ticket, number, _ = thread
    if place == PAUSE:
        yield Thread(PAUSE_TOO, left, looks, shared.serving), shared
    elif place == PAUSE_TOO:
        again = read != shared.tickets and looks + 1 < PAUSES
        yield Thread(PAUSE if again else DRAW, left, looks + 1 if again else 0), shared
    elif place == DRAW and not is_torn:
        yield Thread(LOOK, left, 0, None, shared.tickets, shared.drawn), drawn(shared, shared.tickets, modulus)
    elif place == DRAW:
        yield Thread(STORE, left, 0, None, shared.tickets, shared.drawn), shared
    elif place == STORE:
        yield Thread(LOOK, left, 0, None, ticket, number), drawn(shared, ticket, modulus)
    elif place == LOOK and shared.serving == ticket:
        yield thread._replace(place=TAKE), shared


def drawn(shared: Shared, ticket: int, modulus: int) -> Shared:
    return shared._replace(tickets=(ticket + 1) % modulus, drawn=shared.drawn + 1)


def steps_in_turn(thread: Thread, shared: Shared, modulus: int, is_early: bool, who: int) -> Iterator[tuple[Thread, Shared]]:
    place, left, value = thread.place, thread.left, thread.value
    if place == TAKE:
        if shared.slot is None:
            raise Wrong("the slot is empty in a turn")
        yield thread._replace(place=EMPTY, value=shared.slot), shared
    elif place == EMPTY:
        yield thread._replace(place=ACT), shared._replace(slot=None)
    elif place == ACT:
        if value != shared.history:
            raise Wrong("a turn has another history than all others made")
        for more in ((), ((who, left),)):
            yield thread._replace(place=END if is_early else FIND, value=value + more), shared
    elif place == FIND:
        if shared.slot is not None:
            raise Wrong("the slot is full in a turn")
        yield thread._replace(place=PUT), shared
    elif place == PUT:
        yield ended(left) if is_early else thread._replace(place=END), shared._replace(slot=value)
    elif place == END:
        after = Thread(FIND, left, value=value) if is_early else ended(left)
        yield after, shared._replace(serving=(shared.serving + 1) % modulus, history=value, over=shared.over + 1)


def ended(left: int) -> Thread:
    return Thread(PAUSE if left > 1 else OVER, left - 1)


def check(shared: Shared, threads: tuple[Thread, ...]) -> None:
    _, _, slot, history, count, over = shared
    inside = [it for it in threads if it.place in IN_TURN]
    if len(inside) > 1:
        raise Wrong("two threads are in a turn")
    if not inside and slot != history:
        raise Wrong("nobody is in a turn, and the slot hasn't the history")
    held = sorted(it.number for it in threads if it.place == LOOK or it.place in IN_TURN)
    if held != list(range(over, count)):
        raise Wrong("a ticket is lost, or two threads have it")
    for who in range(len(threads)):
        own = [left for maker, left in history if maker == who]
        if own != sorted(own, reverse=True) or len(set(own)) != len(own):
            raise Wrong("the entries of a thread aren't in order")


def states_behind(state: State, modulus: int, fault: Optional[str]) -> Iterator[State]:
    """The states that a step of some thread leads to."""
    shared, threads = state
    for who, thread in enumerate(threads):
        for after, then in steps_of(thread, shared, modulus, fault, who):
            yield then, threads[:who] + (after,) + threads[who + 1 :]


def search(count: int, turns: int, modulus: int, fault: Optional[str] = None, by_rule: bool = True) -> tuple[int, Optional[str]]:
    """How many states there are, and what is wrong in the first that is, if any: by the rule of each state too, or by what threads meet alone."""
    first = Shared(modulus - 1, modulus - 1, (), (), 0, 0), (Thread(PAUSE, turns),) * count
    met, waiting = {first}, list[State]([first])
    try:
        while waiting:
            state = waiting.pop()
            if by_rule:
                check(*state)
            stuck = True
            for new in states_behind(state, modulus, fault):
                stuck = False
                if new not in met:
                    met.add(new)
                    waiting.append(new)
            if stuck and any(it.place != OVER for it in state[1]):
                raise Wrong("a thread waits for ever")
    except Wrong as wrong:
        return len(met), str(wrong)
    return len(met), None


def finds(count: int, turns: int, modulus: int, fault: Optional[str] = None) -> bool:
    """Whether a search finds something wrong, by the rule and without it."""
    found = [search(count, turns, modulus, fault, by_rule)[1] for by_rule in (True, False)]
    rule, met = (it or "NOT FOUND" for it in found)
    print(f"{fault or f'words modulo {modulus}'}, {count} threads: by the rule: {rule}; by what threads meet: {met}", flush=True)
    return None not in found


def main() -> int:
    failed = False
    for count, turns, modulus in ((2, 2, 2), (2, 3, 4), (3, 1, 3), (3, 1, 4), (3, 2, 3)):
        states, wrong = search(count, turns, modulus)
        print(f"{count} threads, {turns} turns each, words modulo {modulus}: {states:,} states, {wrong or 'nothing is wrong'}", flush=True)
        failed |= wrong is not None
    for fault in FAULTS:
        for count in (2, 3):
            failed |= not finds(count, 2 if count == 2 else 1, 4, fault)
    return failed | (not finds(3, 1, 2))


sys.exit(main())
