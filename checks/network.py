"""A plan's nodes at work: one of the runs that the definitions allow. Each node works its result out anew from what its
ports passed on, and sends the difference."""
from collections import Counter, deque

import nodes
from aligner import Aligner
from messages import Add, Cut, End, Mark, apply, in_order, is_change


class WorkingNode:
    """A node that isn't a source: its ports, what they passed on, and what it has sent.

    It is free once it has answered a message otherwise than it had to: where more than one row of its result changed, which
    changes say so, and in which order, is its own choice.
    """

    def __init__(self, node: nodes.Node) -> None:
        self.node = node
        self.ports = [Aligner(node.block, node.memory) for _ in node.inputs]
        self.table = Counter()
        self.mark = 0
        self.free = False

    def take(self, port: int, message) -> list:
        """What it sends after a message on a port."""
        passed_on = self.ports[port].take(message)
        sent = [one for one in passed_on if is_change(one)]
        if sent and self.node.op != "output":
            result = nodes.result(self.node, self.tables())
            self.free |= rows_between(self.table, result) > 1
            sent = self.repairs(result)
        for change in sent:
            apply(self.table, change)
        bound = nodes.bound(self.node, self.tables(), [port.front for port in self.ports])
        if bound > self.mark:
            self.mark = bound
            sent.append(Mark(bound))
        return sent + ([End()] if all(port.ended for port in self.ports) else [])

    def repairs(self, table: Counter) -> list:
        """Changes that lead from its result so far to this one."""
        return difference(self.table, table)

    def tables(self) -> list:
        return [port.passed for port in self.ports]


def rows_between(old: Counter, new: Counter) -> int:
    return (old - new).total() + (new - old).total()


def difference(old: Counter, new: Counter) -> list:
    """Changes from one table to another: a row is cut where it only gets an earlier end, and else withdrawn."""
    lost, gained = in_order(old - new), in_order(new - old)
    changes = []
    for row in reversed(lost):
        ends = [other.end for other in gained if other[1:] == row[1:] and other.end < row.end]
        if ends:
            gained.remove(row._replace(end=max(ends)))
        changes.append(Cut(row, max(ends, default=row.begin)))
    return changes + [Add(row) for row in gained]


class Network:
    """The working nodes of a plan, and the messages that wait on their ports."""

    def __init__(self, plan: list) -> None:
        self.plan = plan
        self.working = {place: WorkingNode(node) for place, node in enumerate(plan) if node.op != "source"}
        self.waiting = {(place, port): deque() for place, node in enumerate(plan) for port in range(len(node.inputs))}
        self.sources = [place for place, node in enumerate(plan) if node.op == "source"]
        self.output = next(place for place, node in enumerate(plan) if node.op == "output")
        self.given = []

    def feed(self, source: int, messages: list) -> None:
        """Messages of a source wait on each port that reads it."""
        self.send(self.sources[source], messages)

    def settle(self) -> None:
        """Nodes take what waits, and what comes of it goes on to the output, until nothing waits."""
        while waiting := self.next_waiting():
            place, port = waiting
            sent = self.working[place].take(port, self.waiting[waiting].popleft())
            self.send(place, sent)
            if place == self.output:
                self.given += sent

    def next_waiting(self):
        """The first node with a message that waits, in the order of the plan, and its first port with one."""
        return next((port for port, messages in self.waiting.items() if messages), None)

    def send(self, place: int, messages: list) -> None:
        for reader, node in self.working.items():
            for port, input_place in enumerate(node.node.inputs):
                if input_place == place:
                    self.waiting[reader, port].extend(messages)

    @property
    def changes(self) -> list:
        """The changes among what the output gave."""
        return [one for one in self.given if is_change(one)]

    def answer(self) -> list:
        return in_order(self.working[self.output].table)

    def reach(self) -> int:
        return self.working[self.output].ports[0].mark

    def forgotten(self) -> list:
        """The place, the port and what was forgotten there, in the order of the plan."""
        return [(place, port, one) for place, node in self.working.items()
                for port, aligner in enumerate(node.ports) for one in aligner.forgotten]

    def fixed(self) -> dict:
        """What each port forgot whose list is no node's choice, by its place and number."""
        free = {place for place, node in self.working.items() if node.free}
        for place in self.working:
            free |= {place} if free.intersection(self.plan[place].inputs) else set()
        return {(place, port): node.ports[port].forgotten for place, node in self.working.items()
                for port, feeding in enumerate(node.node.inputs) if feeding not in free}


def fed_in_rounds(plan: list, lists: list, network=Network) -> Network:
    """The network after rounds, until all sources have ended: one line of each that hasn't, and then it settles.

    A list has for each line of its source the list of its messages.
    """
    fed = network(plan)
    left = [deque(lines + [[End()]]) for lines in lists]
    while any(left):
        for source, lines in enumerate(left):
            if lines:
                fed.feed(source, lines.popleft())
        fed.settle()
    return fed


def fed_on_threads(plan: list, lists: list) -> Network:
    """The network after one of the orders that threads may take."""
    return fed_in_rounds(plan, lists)
