"""Looks for places of pairs among the publications of a run.

No reply tells in which order pairs were published that have equal numbers of documents, how many labels a pair has that no `stats` was asked of, or which of
them a command took. This searches for an order of all refreshes, for their numbers of labels, and for the pair that each command took, such that

- neither number of the pairs ever falls, and each pair's labels are at least those that are due to its refresh;
- each command takes the last pair that there is when it comes, in the order of its session, and no phase begins before the one before it ends;
- each added label has a bringer: an add that may have entered it, since all pairs that its session had seen have no more labels than stood before it.

A command takes its pair as early as it can: an earlier pair has no more documents and no more labels, so nothing that comes later is hindered by it. A pair has
as few labels as it can, or as many as the next `stats` tells. Where each label can have been entered by one session alone, and no command waits for fewer labels
than the next `stats` tells, the best refresh to come next is known (`best`), and nothing is tried in vain; else all ways are tried."""

from __future__ import annotations

from collections.abc import Iterator
from dataclasses import dataclass, field
from typing import Any

# how many publications are tried before the search gives up
MOST_TRIED = 100_000

# stands where nothing is left to try
GONE: Any = object()


@dataclass(frozen=True)
class Event:
    """A refresh, or a command that took a pair, which has so many documents. `labels` are those of the pair, where a reply tells them; `least` is how many a
    refresh has to publish."""

    line: int
    is_refresh: bool
    documents: int
    labels: int | None = None
    least: int = 0


# The place of an add in its session: the phase, the session, and how many events of the session's stand before it in the phase.
Spot = tuple[int, int, int]


@dataclass
class Problem:
    """The opened pair, phase by phase the events of each session, and for each added label, by its ordinal, the first spot of each session that may have
    entered it, all of one phase."""

    opened: tuple[int, int]
    phases: list[dict[int, list[Event]]]
    bringers: dict[int, list[Spot]]
    # how many labels there are at all
    most: int


@dataclass(frozen=True)
class State:
    """So far: the phase, how many events of each of its sessions have come, the last pair, and the labels that have a bringer."""

    phase: int
    come: tuple[int, ...]
    pair: tuple[int, int]
    done: frozenset[int]
    # the line of each refresh with its labels, the line of each command that took a pair, the last first, as nested pairs
    log: tuple | None = field(compare=False, hash=False)


@dataclass
class Outcome:
    """Whether places were found, or else which lines are in the way of the farthest attempt; not decided where the search gave up. `log` tells of the places:
    each refresh's line with its labels, and each line that took a pair, with None."""

    is_found: bool
    is_decided: bool = True
    lines: tuple[int, ...] = ()
    log: list[tuple[int, int | None]] = field(default_factory=list)


@dataclass(frozen=True)
class Ready:
    """A refresh that can come next: how many labels it has to publish, how many it may, and where its session stands among those of the phase."""

    fewest: int
    latest: int
    place: int
    event: Event


class Search:
    def __init__(self, problem: Problem):
        self.problem = problem
        spots: dict[Spot, list[int]] = {}
        for label, bringers in problem.bringers.items():
            for spot in bringers:
                spots.setdefault(spot, []).append(label)
        self.spots = spots
        self.sessions = [sorted({*events, *(spot[1] for spot in spots if spot[0] == phase)}) for phase, events in enumerate(problem.phases)]
        self.caps = self.caps_of()
        # for each event, how many labels there may be at most when it comes; and the labels that may have been entered by several sessions
        self.latest = {(phase, session): self.latest_of(phase, session) for phase, of_phase in enumerate(self.sessions) for session in of_phase}
        shared = [(bringers[0][0], label) for label, bringers in problem.bringers.items() if len(bringers) > 1]
        self.shared = [frozenset(label for of_phase, label in shared if of_phase == phase) for phase in range(len(problem.phases))]
        self.farthest: tuple[tuple[int, int], tuple[int, ...]] = ((-1, -1), ())

    def caps_of(self) -> list[int]:
        """For each phase: how many labels there may be at its end, so that later replies and labels are right."""
        caps = [self.problem.most] * len(self.problem.phases)
        for phase, events in enumerate(self.problem.phases):
            told = [event.labels for of_session in events.values() for event in of_session if event.labels is not None]
            entered = [label for label, bringers in self.problem.bringers.items() if bringers[0][0] == phase]
            for earlier in range(phase):
                caps[earlier] = min([caps[earlier], *told, *entered])
        return caps

    def latest_of(self, phase: int, session: int) -> list[int]:
        """For each event of a session, and behind all: no more labels than a later reply tells, or than stand before a label that only this session enters
        later, or that is entered in a later phase."""
        events = self.problem.phases[phase].get(session, [])
        latest = [self.caps[phase]] * (len(events) + 1)
        for place in reversed(range(len(events))):
            told = events[place].labels
            entered = [label for label in self.spots.get((phase, session, place + 1), []) if len(self.problem.bringers[label]) == 1]
            latest[place] = min([latest[place + 1], *entered] + ([] if told is None else [told]))
        return latest

    # ---- what may come

    def event(self, phase: int, session: int, come: int) -> Event | None:
        events = self.problem.phases[phase].get(session, [])
        return events[come] if come < len(events) else None

    def next_events(self, state: State) -> list[Event | None]:
        return [self.event(state.phase, session, come) for session, come in zip(self.sessions[state.phase], state.come)]

    def lowest_refresh(self, state: State) -> int | None:
        """The least number of documents of a refresh that is still to come in the phase."""
        lowest = None
        for session, come in zip(self.sessions[state.phase], state.come):
            events = self.problem.phases[state.phase].get(session, [])
            found = next((event.documents for event in events[come:] if event.is_refresh), None)
            if found is not None and (lowest is None or found < lowest):
                lowest = found
        return lowest

    # ---- labels

    def bring(self, done: frozenset[int], reached: list[Spot], labels: int, come: dict[int, int]) -> frozenset[int] | None:
        """The labels that have a bringer when these spots are reached, whose sessions have seen pairs of at most so many labels. None where one gets none."""
        here = {label for spot in reached for label in self.spots.get(spot, []) if label not in done}
        brought = {label for label in here if labels <= label}
        for label in here - brought:
            if all(events <= come[session] for _, session, events in self.problem.bringers[label]):
                return None
        return done | brought if brought else done

    # ---- steps

    def begin(self, phase: int, pair: tuple[int, int], done: frozenset[int], log: tuple | None) -> State | None:
        sessions = self.sessions[phase]
        brought = self.bring(done, [(phase, session, 0) for session in sessions], pair[1], dict.fromkeys(sessions, 0))
        return None if brought is None else State(phase, (0,) * len(sessions), pair, brought, log)

    def moved(self, state: State, place: int, pair: tuple[int, int], entry: tuple[int, int | None]) -> State | None:
        """The next event of a session has come."""
        come = tuple(count + (at == place) for at, count in enumerate(state.come))
        sessions = self.sessions[state.phase]
        reached = [(state.phase, sessions[place], come[place])]
        done = self.bring(state.done, reached, pair[1], dict(zip(sessions, come)))
        return None if done is None else State(state.phase, come, pair, done, (state.log, entry))

    def taken(self, state: State) -> State | None:
        """All commands have come that can take the last pair."""
        place = 0
        while place < len(state.come):
            event = self.event(state.phase, self.sessions[state.phase][place], state.come[place])
            if event and not event.is_refresh and event.documents == state.pair[0] and event.labels in (None, state.pair[1]):
                following = self.moved(state, place, state.pair, (event.line, None))
                if following is None:
                    return None
                state = following
            else:
                place += 1
        return state

    def settled(self, state: State | None) -> State | None:
        """Behind all commands that can take the last pair, and behind all phases that end."""
        while state is not None:
            state = self.taken(state)
            if state is None or any(self.next_events(state)):
                return state
            if state.phase + 1 == len(self.problem.phases):
                return state
            state = self.begin(state.phase + 1, state.pair, state.done, state.log)
        return None

    def is_end(self, state: State) -> bool:
        return state.phase + 1 == len(self.problem.phases) and not any(self.next_events(state))

    def is_stuck(self, state: State, lowest: int | None) -> bool:
        """A command waits for a pair that can't come."""
        for event in self.next_events(state):
            if event and not event.is_refresh and (lowest is None or event.documents < lowest or (event.documents, event.labels or state.pair[1]) < state.pair):
                return True
        return lowest is not None and lowest < state.pair[0]

    def next_told(self, state: State, documents: int) -> int | None:
        """The fewest labels that a reply tells of a pair of so many documents that is still to be taken in the phase."""
        come = zip(self.sessions[state.phase], state.come)
        told = [first_told(self.problem.phases[state.phase].get(session, []), count, documents) for session, count in come]
        return min((labels for labels in told if labels is not None), default=None)

    def told_later(self, phase: int, documents: int) -> int | None:
        """The same of later phases."""
        told = [first_told(events, 0, documents) for later in self.problem.phases[phase + 1 :] for events in later.values()]
        return min((labels for labels in told if labels is not None), default=None)

    def ready(self, state: State, documents: int) -> list[Ready]:
        """The refreshes that can come next, those with the fewest labels first."""
        found = []
        for place, (session, come) in enumerate(zip(self.sessions[state.phase], state.come)):
            event = self.event(state.phase, session, come)
            if event and event.is_refresh and event.documents == documents:
                found.append(Ready(max(event.least, state.pair[1]), self.latest[state.phase, session][come], place, event))
        return sorted(found, key=lambda refresh: (refresh.fewest, refresh.latest, refresh.place))

    def best(self, state: State, ready: list[Ready], told: int | None, documents: int) -> tuple[Ready, int] | None:
        """The refresh that is to come next, with its labels. One that has to come before there are as many labels as the next reply tells comes first, with the
        fewest it can have; then the one publishes these of which the rest of its session can wait the least long."""
        hurried = [refresh for refresh in ready if told is None or refresh.latest < told or (documents, told) == state.pair and refresh.latest == told]
        if hurried:
            return hurried[0], hurried[0].fewest
        openers = [refresh for refresh in ready if refresh.fewest <= told <= refresh.latest]
        return (min(openers, key=lambda refresh: refresh.latest), told) if openers else None

    def is_hurried(self, state: State, told: int | None, documents: int) -> bool:
        """A command waits for a pair of so many documents with fewer labels than the next reply tells."""
        for session, come in zip(self.sessions[state.phase], state.come):
            event = self.event(state.phase, session, come)
            if event and not event.is_refresh and event.documents == documents and told is not None and self.latest[state.phase, session][come] < told:
                return True
        return False

    def published(self, state: State) -> Iterator[State | None]:
        """The ways to publish the next pair: the best one, and where a command is hurried, or a label has bringers of several sessions, also all others."""
        lowest = self.lowest_refresh(state)
        if lowest is None or self.is_stuck(state, lowest):
            return
        told, ready = self.next_told(state, lowest), self.ready(state, lowest)
        wanted = [told] if told is not None else [self.told_later(state.phase, lowest), None]
        ways = [way for way in (self.best(state, ready, labels, lowest) for labels in wanted) if way]
        if self.is_hurried(state, told, lowest) or not self.shared[state.phase] <= state.done:
            ways += [(refresh, labels) for refresh in ready for labels in (refresh.fewest, *wanted) if labels is not None and labels >= refresh.fewest]
        for refresh, labels in dict.fromkeys(ways):
            if labels <= min(refresh.latest, self.problem.most):
                yield self.moved(state, refresh.place, (lowest, labels), (refresh.event.line, labels))

    def note(self, state: State) -> None:
        reached = (state.phase, sum(state.come))
        if reached > self.farthest[0]:
            self.farthest = (reached, tuple(event.line for event in self.next_events(state) if event))

    def run(self) -> Outcome:
        if not self.problem.phases:
            return Outcome(True)
        stack: list[Iterator[State | None]] = [iter([self.begin(0, self.problem.opened, frozenset(), None)])]
        seen: set[State] = set()
        tried = 0
        while stack:
            following = next(stack[-1], GONE)
            if following is GONE:
                stack.pop()
                continue
            state = self.settled(following)
            if state is None or state in seen:
                continue
            seen.add(state)
            self.note(state)
            tried += 1
            if self.is_end(state):
                return Outcome(True, log=entries(state.log))
            if tried >= MOST_TRIED:
                return Outcome(False, False, self.farthest[1])
            stack.append(self.published(state))
        return Outcome(False, True, self.farthest[1])


def first_told(events: list[Event], come: int, documents: int) -> int | None:
    """How many labels a reply tells of the first pair of so many documents behind the events that have come."""
    for event in events[come:]:
        if event.documents > documents:
            return None
        if event.documents == documents and event.labels is not None:
            return event.labels
    return None


def entries(log: tuple | None) -> list[tuple[int, int | None]]:
    found = []
    while log is not None:
        log, entry = log
        found.append(entry)
    return found[::-1]
