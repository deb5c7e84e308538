"""The clauses of a node: which words an operator has, which members of a document they say, and what stands behind them."""
from __future__ import annotations

from cedr_explain.language import OPERATORS
from cedr_plan.refused import Refused, a_word, listed
from cedr_plan.tree import Clause, Node, Span

# The word of a clause where it isn't the document's member.
WORD_OF = {"scope": "within", "hold": "for", "width": "for", "keys": "by"}
# Members that are said without a clause.
UNCLAUSED = ("file", "fields", "number")
# Each level, by the words that say it.
LEVELS = (("strong",), ("middle",), ("block", "memory"))
LEVEL_WORDS = ("strong", "middle", "block", "memory")


def clauses_of(op: str) -> dict:
    """The words of an operator's clauses, each with the member of the document that it says."""
    return {WORD_OF.get(member, member): member for member in OPERATORS[op].members if member not in UNCLAUSED}


def clause_words(op: str) -> tuple:
    return (*clauses_of(op), *(("keep",) if op == "output" else ()), *(LEVEL_WORDS if OPERATORS[op].most else ()))


class Clauses:
    """The clauses of a node by their words. One that its operator hasn't, or that stands twice, is refused."""

    def __init__(self, node: Node) -> None:
        self.node, self.by_word = node, {}
        for one in node.clauses:
            self.add(one)

    def add(self, clause: Clause) -> None:
        word, op = clause.word.text, self.node.op.text
        allowed = clause_words(op)
        if word not in allowed:
            known = f"Its words are {listed(f'`{one}`' for one in allowed)}." if allowed else "It has no such words."
            raise Refused(clause.word.place, f"`{word}` says nothing to {a_word(op)}. {known}")
        if word in self.by_word:
            raise Refused(clause.word.place, f"`{word}` stands twice. A node says it once.")
        if word in LEVEL_WORDS and any(other in self.by_word for one in LEVELS if word not in one for other in one):
            raise Refused(clause.word.place, f"`{word}` is a second level. A node has one.")
        self.by_word[word] = clause

    def value(self, word: str, default=None):
        found = self.by_word.get(word)
        return found.value if found else default

    def needed(self, word: str, example: str):
        """The value of a clause that the operator can't do without."""
        if word not in self.by_word:
            op = self.node.op
            raise Refused(op.place, f"{a_word(op.text).capitalize()} says `{word}`, which is missing here: {example}.")
        return self.by_word[word].value


def span_here(clause: Clause, value) -> Span:
    if not isinstance(value, Span):
        raise Refused(clause.word.place, f"A span stands behind this `{clause.word.text}`, as in {clause.word.text} 5 minutes.")
    return value


def items_here(clause: Clause | None, value) -> list:
    if isinstance(value, Span):
        raise Refused(value.place, f"Columns stand behind this `{clause.word.text}`, as in {clause.word.text} machine.")
    return value


# What a node of each operator looks like behind its `=`.
EXAMPLES = {
    "select": "select reports where load >= 50", "project": "project reports keep machine, load", "union": "union day, night",
    "join": "join orders o, payments p where o.number = p.number", "window": "window reports for 2 minutes",
    "shift": "shift alarms by 60 seconds", "hop": "hop alarms every 1 hour for 1 hour", "group": "group reports by machine count sum load",
    "sequence": "sequence installs i, shutdowns s within 12 hours where i.machine = s.machine",
    "unless": "unless alarms a, visits v within 2 minutes for 1 second where a.machine = v.machine",
    "atleast": "atleast 2 of smoke, heat, gas within 10 seconds", "except": "except due d, payments p where d.number = p.number",
}


def example_of(op: str) -> str:
    return EXAMPLES.get(op, op)
