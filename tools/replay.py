"""Puts the steps of nodes, each node's own in its order, into one order, writes it as a scenario, and compares that run with them.

A `Step` is an atomic step of a node: a start, or a frame that it took; with the frames that it then sent and its news. `ordered` finds an order
of all steps that keeps

- each node's own order;
- each frame after its sending, and each join after the node that it asks has become core;
- the numbers of tickets and of casts;
- each period after the one before: a departure has a period of its own (docs/NETWORK.md, "How a run is replayed").

`scenario_of` writes an order as a scenario that isn't carried, in which `deliver K` takes each frame. `compare` says how far the log of its run
is what the nodes sent and said.
"""
import collections
import heapq

import runs

# The first words of the records of a log, and of the lines of a process, that are a node's news.
NEWS = ("core", "gone", "answered", "reached", "closed")


class Step:
    """A step of a node: the text of its start, or the frame that it took (its sender and number), what it sent, its news, and its period."""

    def __init__(self, node, period, start=None, taken=None):
        self.node, self.period, self.start, self.taken = node, period, start, taken
        self.sent, self.news = [], []

    def number(self):
        """The kind and the number of a lookup or a cast that begins here, or None."""
        words = self.start.split(" ") if self.start else [""]
        return (words[0], int(words[1])) if words[0] in ("find", "cast") else None

    def text(self):
        """The start as a step of a scenario has it: without its number."""
        words = self.start.split(" ")
        return " ".join(words[:1] + words[2:] if self.number() else words)


class Frame:
    """A frame that was sent: its key, which is its sender, its receiver and its number on that way, and its bytes in hexadecimal."""

    def __init__(self, sender, receiver, number, spelling):
        self.key, self.receiver, self.spelling = (sender, receiver, number), receiver, spelling


class Constraints:
    """Which steps come before which: for each step those that wait for it, and how many it still waits for."""

    def __init__(self, steps):
        self.steps = steps
        self.after, self.awaited = collections.defaultdict(list), [0] * len(steps)

    def add(self, first, later):
        self.after[first].append(later)
        self.awaited[later] += 1

    def add_chain(self, places):
        """One step after the other."""
        for first, later in zip(places, places[1:]):
            self.add(first, later)


def places_by(steps, key_of):
    """The places of the steps by a key, but of those that have none."""
    found = collections.defaultdict(list)
    for place, step in enumerate(steps):
        key = key_of(step)
        if key is not None:
            found[key].append(place)
    return found


def add_frames(found, steps):
    """Each frame is taken after it was sent."""
    sent = {frame.key: place for place, step in enumerate(steps) for frame in step.sent}
    for place, step in enumerate(steps):
        if step.taken is None:
            continue
        if step.taken not in sent:
            sender, receiver, number = step.taken
            raise runs.Wrong(f"{receiver} took frame {number} of {sender}, which {sender} didn't send", 1)
        found.add(sent[step.taken], place)


def add_numbers(found, steps):
    """Lookups and casts begin in the order of their numbers."""
    for kind in ("find", "cast"):
        places = places_by(steps, lambda step: step.number() if (step.number() or ("",))[0] == kind else None)
        numbers = sorted(places)
        if [number for _, number in numbers] != list(range(1, len(numbers) + 1)) or any(len(same) > 1 for same in places.values()):
            raise runs.Wrong(f"the numbers of '{kind}' aren't 1, 2, 3 and so on, each once", 1)
        found.add_chain([places[number][0] for number in numbers])


def add_joins(found, steps):
    """A node that joins asks one that is core."""
    core = {step.node: place for place, step in enumerate(steps) if ["core", step.node] in step.news}
    for place, step in enumerate(steps):
        words = step.text().split(" ") if step.start else [""]
        if words[0] == "join" and words[3] in core:
            found.add(core[words[3]], place)


def constraints_of(steps):
    """What an order has to keep within one period."""
    found = Constraints(steps)
    for places in places_by(steps, lambda step: step.node).values():
        found.add_chain(places)
    add_frames(found, steps)
    add_joins(found, steps)
    add_numbers(found, steps)
    return found


def ordered(steps):
    """All steps in one order. What could come next is taken by its period, and then by its place among the steps that are given."""
    found = constraints_of(steps)
    ready = [(step.period, place) for place, step in enumerate(steps) if found.awaited[place] == 0]
    heapq.heapify(ready)
    order, period = [], 0
    while ready:
        step_period, place = heapq.heappop(ready)
        if step_period < period:
            raise runs.Wrong(f"{steps[place].node} takes a step of period {step_period} after one of period {period}", 1)
        period = step_period
        order.append(steps[place])
        for later in found.after[place]:
            found.awaited[later] -= 1
            if found.awaited[later] == 0:
                heapq.heappush(ready, (steps[later].period, later))
    if len(order) < len(steps):
        raise runs.Wrong(f"no order keeps what the nodes have written: {len(steps) - len(order)} steps wait for one another", 1)
    return order


def scenario_of(order, base, digits, width, members):
    """The scenario of an order, in which each frame is taken by its place among those that are outstanding."""
    if len(order) > runs.MOST_STEPS:
        raise runs.Wrong(f"the run has {len(order):,} steps, and a scenario has {runs.MOST_STEPS:,} at most: it can't be replayed", 3)
    outstanding, texts = [], []
    for step in order:
        if step.start:
            texts.append(step.text())
        else:
            place = outstanding.index(step.taken)
            del outstanding[place]
            texts.append(f"deliver {place}")
        outstanding += [frame.key for frame in step.sent]
    frames = 500_000 if digits <= 8 else 100_000
    return runs.Scenario(base, digits, width, members, texts, frames)


# ---- comparing


class Comparison:
    """What a run and the nodes have in common: how many frames and news are the same, and what differs, in lines."""

    def __init__(self):
        self.frames = self.news = 0
        self.different = []

    def add(self, step, group):
        """Compares a step with the group of the log in which it is taken."""
        where = f"{step.node}, {'at ' + step.start if step.start else 'at frame %d of %s' % (step.taken[2], step.taken[0])}"
        sent = [(words[3], words[4], words[5]) for words in group.of_kind("sent")]
        own = [(frame.key[0], frame.receiver, frame.spelling) for frame in step.sent]
        news = [words for words in group.records if words[0] in NEWS]
        if group.refused is not None:
            self.different.append(f"{where}: the run refuses it: {group.refused[1]}")
        elif sent != own:
            self.different.append(f"{where}: the process sent {len(own)} frames, and the run {len(sent)}, or others")
        elif news != step.news:
            self.different.append(f"{where}: the process said {said(step.news)}, and the run {said(news)}")
        self.frames, self.news = self.frames + len(own), self.news + len(step.news)


def said(news):
    return "; ".join(" ".join(words) for words in news) or "nothing"


def groups_of(log):
    """The groups in which nodes take steps, in their order: starts, and frames that are taken."""
    return [group for group in log.groups if group.kind == "frame" or (group.kind == "step" and not group.text.startswith("deliver "))]


def compare(order, log):
    """Compares an order with the log of its scenario."""
    result, groups = Comparison(), groups_of(log)
    for step, group in zip(order, groups):
        result.add(step, group)
    if len(groups) != len(order):
        result.different.append(f"the nodes took {len(order):,} steps, and {len(groups):,} are in the run")
    return result
