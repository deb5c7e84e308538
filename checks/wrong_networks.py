#!/usr/bin/env python3
"""Shows that networks.py can fail, and that it doesn't where nothing is wrong. It looks at a stand-in for the program
that answers by a run of the reference. Where that is wrong in one way it must find a difference, and in the other runs
that the definitions allow none. Status 1 where that isn't so.

usage: checks/wrong_networks.py
"""
import contextlib
import random
import sys
import tempfile
from concurrent.futures import ProcessPoolExecutor
from pathlib import Path
from unittest import mock

sys.dont_write_bytecode = True

import asked
import made
import network_cases
import network_texts
import networks
import nodes
import reference
from aligner import Aligner
from messages import Add, Cut, End, Mark, in_one_list, later, sync
from network import Network, WorkingNode, fed_in_rounds

# Of these plans two take as long as all others together.
PLANS = [seed for seed in range(25) if seed not in (7, 10)]
SEEDS = PLANS, range(60), range(20), range(20), range(1)


class Found(Exception):
    """The name of the case that shows a difference."""


class StandIn(networks.NetworkCheck):
    """Answers by a run of the reference in which one thing is other than it should be."""

    def __init__(self, folder: Path, wrong) -> None:
        super().__init__(Path(), folder, "")
        self.wrong = wrong

    def run(self, words: list, out=None, set_up=None) -> tuple[int, bytes, bytes]:
        with self.wrong():
            status, text, err = network_texts.answer(words, self.find)
        return (5, b"", b"write fault\n") if out and text else (status, text, err)

    def compare(self, name: str, data, expected: tuple, came: tuple) -> None:
        if expected != came:
            raise Found(name)

    def find(self, name: str):
        place = self.folder / name
        return place.read_bytes() if place.is_file() else None


def instead(owner, name: str, wrong):
    return lambda: mock.patch.object(owner, name, wrong)


def operator(op: str, wrong):
    return lambda: mock.patch.dict(nodes.RESULTS, {op: wrong})


def late_at_once(self, change) -> str:
    if sync(change) + self.memory <= self.high:
        return "late"
    return "orphan" if isinstance(change, Cut) and not self.kept[change.row] else ""


def all_late(self, change) -> str:
    orphan = isinstance(change, Cut) and not self.kept[change.row]
    return "late" if orphan or sync(change) + self.memory < self.high else ""


def released_at_the_mark(self, row) -> bool:
    return not self.ended and row.end > self.mark and row.begin + self.block > self.high


def held_one_longer(self, row) -> bool:
    return not self.ended and row.end >= self.mark and row.begin + self.block >= self.high


def front_is_the_mark(self) -> list:
    rose, self.front = self.mark > self.front, self.mark
    return [Mark(self.front)] if rose else []


def one_copy_joined(members: dict, left, right):
    return ((*row[:3], 1) for row in nodes.joined(members, left, right))


def ties_in_sequence(members: dict, *tables):
    yield from nodes.sequenced(members, *tables)
    first, second = tables[:2]
    for one, other in ((one, other) for one in first for other in second if len(tables) == 2):
        if one.begin == other.begin and nodes.passes(members, one.payload + other.payload):
            yield one.begin, later(one.begin, members["scope"]), one.payload + other.payload, 1


def two_of_one_port(members: dict, *tables):
    """Two rows of one port count too."""
    yield from nodes.at_least(members, *tables)
    for table in tables if members["number"] == 2 else []:
        yield from nodes.at_least(members, table, table)


def untested(members: dict, *tables):
    return nodes.excepted({**members, "where": []}, *tables)


def scope_end_blocks(members: dict, table, blockers):
    wider = {**members, "scope": members["scope"] + 1}
    for row in nodes.unblocked(wider, table, blockers):
        yield row[0] - 1, row[1] - 1, row[2], row[3]


def least_of_each(choose, columns: list, payloads: list) -> list:
    return EXTREMES(min, columns, payloads)


def hop_from_the_begin(members: dict, table):
    return nodes.windowed(members, nodes.result(nodes.Node("", "starts", [], 0, 0, [], members), [table]))


def first_fault_alone(command: str, plan: list, find) -> asked.Asked:
    read = READ_SOURCES(command, plan, find)
    return read._replace(err=read.err[: read.err.find(b"\n") + 1])


def events_before_reads(command: str, plan: list, find) -> asked.Asked:
    read = READ_SOURCES(command, plan, lambda name: find(name) or b"")
    return read if read.status else READ_SOURCES(command, plan, find)


def quiet_inner_ports(self) -> list:
    sources = [place for place, node in enumerate(self.plan) if node.op == "source"]
    return [one for one in FORGOTTEN(self) if self.plan[one[0]].inputs[one[1]] in sources]


def rows_at_the_end(network: Network) -> bytes:
    rows = b"".join(b"+," + reference.row_text(row) for row in network.answer())
    return rows + network_texts.stream(network).removeprefix(b"".join(map(reference.change_text, network.changes)))


def revised_without_a_cut(self, identity: int, row) -> list:
    return REVISE(self, identity, row)[-1:]


def revised_within_its_life(self, identity: int, row) -> list:
    """A new version that ends where the event ended before."""
    before = self.events.get(identity, row)
    return REVISE(self, identity, row._replace(end=max(row.begin + 1, min(row.end, before.end))))


def never_quoted(field) -> bytes:
    return str(field).encode() if isinstance(field, int) else field


class AnyOrder(Network):
    """Nodes take in any order."""

    def next_waiting(self):
        return CHOICE.choice([port for port, messages in self.waiting.items() if messages] or [None])


class LastFirst(Network):
    """The last port that waits takes first."""

    def next_waiting(self):
        return ([port for port, messages in self.waiting.items() if messages] or [None])[-1]


def fed_one_after_the_other(plan: list, lists: list) -> Network:
    network = Network(plan)
    for source, lines in reversed(list(enumerate(lists))):
        for messages in lines + [[End()]]:
            network.feed(source, messages)
            network.settle()
    return network


def fed_by_messages(plan: list, lists: list) -> Network:
    return fed_in_rounds(plan, [[messages for messages in lines if messages] for lines in lists])


def fed_one_message_a_round(plan: list, lists: list) -> Network:
    return fed_in_rounds(plan, [in_one_list(map(one_by_one, lines)) for lines in lists])


def one_by_one(messages: list) -> list:
    return [[message] for message in messages] or [[]]


def fed_before_all_settles(plan: list, lists: list) -> Network:
    network = Network(plan)
    for place in range(max(map(len, lists)) + 1):
        for source, lines in enumerate(lists):
            for messages in (lines + [[End()]])[place : place + 1]:
                network.feed(source, messages)
    network.settle()
    return network


def fed_in_any_order(plan: list, lists: list) -> Network:
    return fed_in_rounds(plan, lists, AnyOrder)


def fed_last_first(plan: list, lists: list) -> Network:
    return fed_in_rounds(plan, lists, LastFirst)


def silent_at_a_fault(words: list, find) -> tuple[int, bytes, bytes]:
    status, out, err = ANSWER(words, find)
    return status, b"" if status else out, err


CHOICE = random.Random(1)
READ_SOURCES, FORGOTTEN, ANSWER, MIXED = asked.read_sources, Network.forgotten, network_texts.answer, made.mixed
REVISE, EXTREMES = reference.Judge.revise, nodes.extremes

# What random plans and scripts show.
BY_CHANCE = {
    "a change is late one too early": instead(Aligner, "cause", late_at_once),
    "an orphan is called late": instead(Aligner, "cause", all_late),
    "a row that ends at the mark is released": instead(Aligner, "is_held", released_at_the_mark),
    "a row waits one longer for its block": instead(Aligner, "is_held", held_one_longer),
    "the front jumps over what is held": instead(Aligner, "raise_front", front_is_the_mark),
    "a group hands its guarantee on": instead(nodes, "open_begins", lambda *_: []),
    "a join makes one copy": operator("join", one_copy_joined),
    "a tie is in sequence": operator("sequence", ties_in_sequence),
    "each row is an exception": operator("except", untested),
    "an except hands its guarantee on": instead(nodes, "open_parts", lambda *_: []),
    "the end of the scope blocks": operator("unless", scope_end_blocks),
    "a hop begins with its row": operator("hop", hop_from_the_begin),
    "the first faulty source alone is told": instead(asked, "read_sources", first_fault_alone),
    "a port behind an operator forgets and doesn't tell": instead(Network, "forgotten", quiet_inner_ports),
    "the list is turned round": instead(Network, "forgotten", lambda self: FORGOTTEN(self)[::-1]),
    "rows are sorted by their begin": instead(Network, "answer", lambda self: sorted(
        self.working[self.output].table.elements(), key=lambda row: row[1:])),
    "a stream waits for the end": lambda: mock.patch.dict(network_texts.TEXTS, stream=rows_at_the_end),
    "a field isn't quoted": instead(reference, "field_text", never_quoted),
    "what a script showed before its fault is lost": instead(network_texts, "answer", silent_at_a_fault),
    "a guarantee of live is that of the sources": instead(Network, "reach", lambda self: 0),
    "a revision leaves the old row": instead(reference.Judge, "revise", revised_without_a_cut),
    "a revision doesn't lengthen a life": instead(reference.Judge, "revise", revised_within_its_life),
}

# What cases by hand alone show.
BY_HAND = {
    "two rows of one port are at least two": operator("atleast", two_of_one_port),
    "at least so many are joined by their ports": instead(nodes, "in_turn", list),
    "greatest fields are the least ones": instead(nodes, "extremes", least_of_each),
    "sums have 64 bits": instead(nodes, "wrapped", lambda number: (number + 2**63) % 2**64 - 2**63),
    "faults are told before reads that fail": instead(asked, "read_sources", events_before_reads),
    "a line without a message uses up no turn": instead(network_texts, "fed_in_rounds", fed_by_messages),
    "the network settles once all is fed": instead(network_texts, "fed_in_rounds", fed_before_all_settles),
    "sources come one after the other in rounds": instead(network_texts, "fed_in_rounds", fed_one_after_the_other),
    "the last port takes first in rounds": instead(network_texts, "fed_in_rounds", fed_last_first),
    "the messages of a revision come in two rounds": instead(network_texts, "fed_in_rounds", fed_one_message_a_round),
    "made numbers are others": instead(made, "mixed", lambda number: MIXED(number + 1)),
}


def withdrawn_repairs(self, table) -> list:
    """A row that gets an earlier end is withdrawn and added anew, where its begin isn't below what was guaranteed."""
    halves = [half for change in REPAIRS(self, table) for half in in_two(change, self.mark)]
    return sorted(halves, key=lambda change: isinstance(change, Add))


def in_two(change, mark: int) -> list:
    if isinstance(change, Cut) and mark <= change.row.begin < change.end:
        return [Cut(change.row, change.row.begin), Add(change.row._replace(end=change.end))]
    return [change]


REPAIRS = WorkingNode.repairs

LAWFUL = {
    "nothing is other": contextlib.nullcontext,
    "nodes take in any order on threads": instead(network_texts, "fed_on_threads", fed_in_any_order),
    "nodes take in any order of a script": instead(network_texts, "Network", AnyOrder),
    "rows are withdrawn, not cut": instead(WorkingNode, "repairs", withdrawn_repairs),
    "sources come one after the other on threads": instead(network_texts, "fed_on_threads", fed_one_after_the_other),
}

WAYS = BY_CHANCE | BY_HAND | LAWFUL


def first_difference(way: str) -> str:
    with tempfile.TemporaryDirectory(prefix="cedr-check-") as folder:
        check = StandIn(Path(folder), WAYS[way])
        try:
            if way not in BY_HAND:
                networks.check_seeds(check, *SEEDS)
            if way not in BY_CHANCE:
                networks.check_made(check)
                networks.check_by_hand(check, network_cases.all_cases())
                networks.check_full_device(check)
        except Found as found:
            return str(found)
    return ""


def main() -> int:
    with ProcessPoolExecutor() as pool:
        found = dict(zip(WAYS, pool.map(first_difference, WAYS)))
    missed = [way for way, name in found.items() if bool(name) == (way in LAWFUL)]
    for way in missed:
        print(f"{way}: {found[way] or 'no difference'}")
    print(f"wrong networks: {len(WAYS) - len(LAWFUL)} wrong and {len(LAWFUL)} lawful ones, {len(missed)} not seen as such")
    return 1 if missed else 0


if __name__ == "__main__":
    sys.exit(main())
