"""A document as words. The names of columns and the short names of inputs are invented, since a document has none."""
from __future__ import annotations

import json

from cedr_explain.json_text import Value
from cedr_explain.language import EXTREMES, OPERATORS
from cedr_explain.plan import Plan
from cedr_plan.clauses import LEVEL_WORDS, clauses_of
from cedr_plan.columns import Column, Reach, prefixed
from cedr_plan.grammar import RESERVED
from cedr_plan.node import Maker, reach_of
from cedr_plan.tree import (Clause, Counted, File, Input, Item, Items, Name, Node, Path, Span, Test, Tests, Word, spelt,
                            spelt_path)
from cedr_plan.tree import Column as Written

WIDEST = 110
WIDEST_NAME = 20


def words_of(plan: Plan) -> str:
    """The words of an accepted document."""
    document = plain(plan.document)
    maker = Maker()
    nodes = [node_of(own_members(plan, node), maker) for node in document["nodes"]]
    least = max(2 if OPERATORS[node.op.text].version == 2 or {one.word.text for one in node.clauses} & set(EXTREMES) else 1
                for node in nodes)
    settings = [f"version {document['version']}"] * (document["version"] != least)
    settings += [f"edge {document['edge']}"] if "edge" in document else []
    widest = max((len(spelt(node.name.text)) for node in nodes if len(node.name.text) <= WIDEST_NAME), default=0)
    return "".join(f"{line}\n" for line in [*settings, *(line_of(node, widest) for node in nodes)])


def plain(value: Value):
    """What a value of a JSON text holds, without its places."""
    if type(value.held) is dict:
        return {name: plain(one) for name, one in value.held.items()}
    return [plain(one) for one in value.held] if type(value.held) is list else value.held


def own_members(plan: Plan, node: dict) -> dict:
    """The members that say something, of the document's version; an empty list that may be missing is left out."""
    operator = plan.operators[node["op"]]
    ports = ["from", "level"] if operator.most else []
    known = [name for name in ["name", "op", *ports, *operator.members] if name in node]
    return {name: node[name] for name in known if not (name in EXTREMES and node[name] == [])}


def node_of(node: dict, maker: Maker) -> Node:
    """The statement of a node, in front of which those of the nodes that it reads are taken."""
    bare = Node(Name(node["name"], 0), Word(node["op"], 0, "WORD"), subject_of(node), [])
    if node["op"] == "source":
        maker.nodes(bare)
        return bare
    operator = OPERATORS[node["op"]]
    reach = reach_of(bare, maker.inputs(bare, operator))
    made = bare._replace(clauses=[*clauses(node, reach), *level_clauses(node)])
    maker.nodes(made)
    return made


def subject_of(node: dict):
    if node["op"] == "source":
        columns = [Written((Name(f"c{place}", 0), Name(kind, 0)), 0) for place, kind in enumerate(node["fields"])]
        return File(Word(json.dumps(node["file"], ensure_ascii=False), 0, "TEXT"), None, columns)
    names = node["from"]
    is_short = len(names) > 1 and node["op"] not in ("union", "atleast")
    shorts = short_names(names) if is_short else [None] * len(names)
    inputs = [Input(Name(name, 0), Name(short, 0) if short else None) for name, short in zip(names, shorts)]
    return Counted(Word(str(node["number"]), 0, "NUMBER"), inputs) if "number" in node else inputs


def short_names(names: list) -> list:
    """A letter for each input, that of its name where it can be, and a number behind it where it is taken."""
    shorts = []
    for name in names:
        letter = next((one for one in name.lower() if one.isalpha()), "n")
        short, count = letter, 2
        while short in shorts or short in RESERVED:
            short, count = f"{letter}{count}", count + 1
        shorts.append(short)
    return shorts


def clauses(node: dict, reach: Reach) -> list:
    """The clauses of the node's own members."""
    seen, made = set(), []
    for word, member in clauses_of(node["op"]).items():
        kind, value = OPERATORS[node["op"]].members[member].kind, node.get(member, [])
        if kind == "span":
            made.append(clause(word, number_span(value)))
        elif kind == "tests":
            made += [clause(word, Tests(test_of(one, reach) for one in value))] if value else []
        elif kind == "flag":
            made += [clause(word, count_name(seen))] if value else []
        elif value or member == "keep":
            made.append(clause(word, items_of(value, reach, word if word in ("sum", *EXTREMES) else "", seen)))
    return made


def clause(word: str, value) -> Clause:
    return Clause(Word(word, 0, word.upper()), value)


def number_span(value) -> Span:
    return Span((Word(str(value), 0, "INF" if value == "inf" else "NUMBER"),), 0)


def level_clauses(node: dict) -> list:
    level = node.get("level")
    if level is None:
        return []
    if isinstance(level, str):
        return [clause(level, None)]
    return [clause(word, number_span(level[word])) for word in LEVEL_WORDS[2:]]


def name_in(reach: Reach, number: int) -> Path:
    """A name that this column alone has."""
    names = [reach.columns[number].name, reach.second[number]]
    return Path(next(one for one in names if one and len(reach.places(one)) == 1), 0)


def test_of(test: list, reach: Reach) -> Test:
    left, comparison, side = test
    if "column" in side:
        right = name_in(reach, side["column"])
    elif "int" in side:
        right = Word(str(side["int"]), 0, "NUMBER")
    else:
        right = Word(json.dumps(side["text"], ensure_ascii=False), 0, "TEXT")
    return Test(name_in(reach, left), Word(comparison, 0, "SIGN"), right)


def items_of(numbers: list, reach: Reach, word: str, seen: set) -> Items:
    """The columns of a list. One whose name another column of the result has is given another one."""
    items = Items()
    for number in numbers:
        column: Column = reach.columns[number]
        own = prefixed(word, column.name) if word else column.name
        name = unlike(own, seen)
        items.append(Item(name_in(reach, number), Path(name, 0) if name != own else None))
    return items


def count_name(seen: set) -> Path | None:
    name = unlike(("count",), seen)
    return Path(name, 0) if name != ("count",) else None


def unlike(own: tuple, seen: set) -> tuple:
    """This name, or one with a number that nothing else has."""
    name, count = own, 2
    while name in seen:
        name, count = (*own[:-1], f"{own[-1]}_{count}"), count + 1
    seen.add(name)
    return name


def line_of(node: Node, widest: int) -> str:
    """The text of a statement; where it is long its clauses stand in lines of their own."""
    front = f"{spelt(node.name.text):<{widest}} = {node.op.text} {subject_text(node.subject)}"
    parts = [front, *map(clause_text, node.clauses)]
    line = " ".join(parts)
    return line if len(line) <= WIDEST else "\n  ".join(parts)


def subject_text(subject) -> str:
    if isinstance(subject, File):
        columns = ", ".join(f"{spelt(name.text)} {kind.text}" for name, kind in (one.words for one in subject.columns))
        return f"{subject.file.text} ({columns})"
    inputs = subject.inputs if isinstance(subject, Counted) else subject
    named = ", ".join(" ".join(spelt(one.text) for one in each if one) for each in inputs)
    return f"{subject.number.text} of {named}" if isinstance(subject, Counted) else named


def clause_text(one: Clause) -> str:
    word, value = one.word.text, one.value
    if value is None:
        return word
    if isinstance(value, Span):
        return f"{word} {value.words[0].text}"
    if isinstance(value, Tests):
        return f"{word} {' and '.join(map(test_text, value))}"
    if isinstance(value, Path):
        return f"{word} as {spelt_path(value.parts)}"
    return f"{word} {', '.join(map(item_text, value)) or '()'}"


def test_text(test: Test) -> str:
    right = spelt_path(test.right.parts) if isinstance(test.right, Path) else test.right.text
    return f"{spelt_path(test.left.parts)} {test.sign.text} {right}"


def item_text(item: Item) -> str:
    return spelt_path(item.path.parts) + (f" as {spelt_path(item.alias.parts)}" if item.alias else "")
