"""Scripts that are followed, made at random: lines of every fault among them, and lines about events that are over."""
import random

import nodes
import random_networks
from messages import FOREVER
from reference import LINE_LIMIT

LENGTHS = [0, 1] + [8, 16, 30, 50, 80] * 4
LONG = 0.05
GUARANTEES, AGAIN, ABOUT_OVER, ABOUT_OPEN = 0.1, 0.12, 0.25, 0.2
MOST_OF_A_PIECE = 100


class FollowedFile(random_networks.SourceFile):
    """Makes the lines of a source that is followed. Some of them are about events that end below its guarantee."""

    again = AGAIN

    def good_line(self) -> bytes:
        if self.rng.random() < GUARANTEES:
            return self.guarantee()
        over = self.over()
        if over and self.rng.random() < self.again:
            return self.inserted_again(self.rng.choice(over))
        return super().good_line()

    def over(self) -> list:
        return [identity for identity, (_, end, _) in self.events.items() if end < self.mark]

    def inserted_again(self, identity: int) -> bytes:
        begin = self.begin()
        return self.event(b"+", identity, begin, self.end(begin), self.payload())

    def odd_line(self) -> bytes:
        over, chance = self.over(), self.rng.random()
        if over and chance < ABOUT_OVER:
            return self.about_over(self.rng.choice(over))
        still = [identity for identity in self.events if identity not in over]
        if still and chance > 1 - ABOUT_OPEN:
            return self.about_open(self.rng.choice(still))
        return super().odd_line()

    def about_over(self, identity: int) -> bytes:
        """A correction of an event that is forgotten."""
        begin = self.begin()
        if self.rng.random() < 0.5:
            return self.text([b"-", self.number(identity), self.number(begin)])
        return self.text([b"~", *map(self.number, [identity, begin, begin + 1]), *self.payload()])

    def about_open(self, identity: int) -> bytes:
        """An insertion of a known event, or a retraction to its end."""
        end = self.events[identity][1]
        if self.rng.random() < 0.5:
            return self.text([b"-", self.number(identity), self.number(end)])
        return self.text([b"+", *map(self.number, [identity, self.begin(), FOREVER]), *self.payload()])


class OnceFile(FollowedFile):
    """The same, where no id is inserted again."""

    again = 0


def random_followed(rng: random.Random, odd: float, maker: type = FollowedFile) -> dict:
    """A plan that can be saved, and a script for it with this chance of odd lines."""
    data = random_networks.random_network(rng, maker=random_networks.SavedMaker)["plan.json"]
    sources = [node for node in nodes.read_nodes(data) if node.op == "source"]
    makers = random_networks.source_makers(rng, sources, maker)
    count = rng.choice(LENGTHS)
    lines = [random_networks.script_line(rng, sources, makers, odd) for _ in range(count)]
    if odd and rng.random() < LONG:
        lines.insert(rng.randrange(count + 1), long_line(rng, rng.choice(sources).name.encode()))
    lines += [node.name.encode() + b",=,inf\n" for node in sources if rng.random() < 0.2]
    text = b"".join(lines)
    return {"plan.json": data, "x.txt": text.removesuffix(b"\n") if rng.random() < 0.2 else text}


def long_line(rng: random.Random, name: bytes) -> bytes:
    """A line at the limit or above it, which says nothing where it isn't too long."""
    size = rng.choice([LINE_LIMIT, LINE_LIMIT + 1, LINE_LIMIT + 2, 3 * LINE_LIMIT])
    front = rng.choice([name + b",=,", b"\xff,"]) if size > LINE_LIMIT else name + b",=,"
    return front + b"0" * (size - len(front)) + b"\n"


def pieces(rng: random.Random, text: bytes):
    """The text in pieces of 1 to 100 bytes."""
    at = 0
    while at < len(text):
        size = rng.randint(1, MOST_OF_A_PIECE)
        yield text[at : at + size]
        at += size
