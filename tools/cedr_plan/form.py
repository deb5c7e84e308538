"""A statement read by the grammar, and in sentences what keeps one from its form."""
from __future__ import annotations

import re

import cedr_explain.advice as advice
from cedr_explain.language import OPERATORS
from cedr_plan.clauses import clause_words
from cedr_plan.grammar import CLAUSE_WORDS, parser, told
from cedr_plan.refused import Refused, listed
from cedr_plan.text import Statement, check_begin
from cedr_plan.tree import Builder

DEEPEST = 64
SETTINGS = ("unit", "epoch", "version", "edge")
EVENT_LINE = re.compile(r"[+\-~=],")
PATTERN = re.compile(r"EVENT\b(?!\s*=)")
BEGUN = re.compile(r"(?:([^\W\d]\w*)|(`(?:[^`\\\n]|\\.)*`))\s*=\s*([^\W\d]\w*)?")
FIRST_WORDS = re.compile(r"(\w*)[ \t]*(\w*)")
BUILDER = Builder()
# What other languages write, by the letters that stand at the place, and what is written here.
SAID_ELSEWHERE = [
    (r"or\b|OR\b|\|\|", "There is no `or`: two selects, each with one side, and a `union` of them say it."),
    (r"&&|AND\b", "Tests are joined by `and`."),
    (r"not\b|NOT\b|!(?!=)", "There is no `not`: turn the comparison round, as `!=` for `=` and `<` for `>=`."),
    (r"['“”„‘’«»]", "A text stands between double quotes (\")."),
    (r"[^\S ]", "A blank is the plain one or a tab."),
    (r"//|--|/\*", "What is said to people alone stands behind a `#`."),
    (r";", "A statement ends with its line, and without a sign."),
    (r"[Ww][Ii][Tt][Hh][Ii][Nn]\b", "Words are written in small letters: `within`."),
    (r"[Ww][Hh][Ee][Rr][Ee]\b", "Words are written in small letters: `where`."),
    (r"on\b|ON\b|when\b|having\b|if\b", "The tests of a node stand behind `where`."),
    (r"as\b|AS\b", "Another name for a column stands in a list: keep load as kilowatts."),
    (r"select\b|from\b", "A node has one operator: give what is read here a name and a line of its own."),
    (r"\[|\{", "Columns stand between round brackets."),
    (r",\d{3}\b", "The digits of a number stand without signs between: 43200."),
    (r":", "Leave the colon out, as in machine text and unit second."),
    (r"(?:like|in|between|LIKE|IN|BETWEEN)\b", "A test compares two sides by =, !=, <, <=, > or >=; a range is two tests with `and`."),
    (r"\*\s*(?:from|FROM)\b", "A node reads another one by its name, and all columns stay: large = select orders where amount >= 100."),
    (r"\(", "Columns of a list stand without brackets, as in group reports by machine count sum load."),
    (r'"', "A name stands without quotes, or between backquotes."),
    (r"[-+*/%](?![-/*])", "Nothing is worked out in a plan; what is computed becomes a column of the files."),
    (r"\d", "A number stands behind a word that says what it is, as `within 5 minutes`."),
]
NO_TEXT = {'"': "This text has no closing quote in its line. A line break in a text is \\n, a tab \\t, and a quote \\\".",
           "`": "This name has no closing backquote in its line."}


def read(statement: Statement):
    """The Node, the Setting or the Pattern that the statement is."""
    import lark

    if statement.text[0] in "{[":
        raise Refused(statement.place, "This is JSON, and not a plan in words. `cedr-plan words PLAN` writes a document as words.")
    check_begin(statement)
    check_start(statement)
    check_depth(statement)
    is_pattern = bool(PATTERN.match(statement.text))
    BUILDER.base = statement.place
    try:
        return parser(BUILDER).parse(statement.text, start="pattern" if is_pattern else "statement")
    except lark.exceptions.UnexpectedCharacters as error:
        raise Refused(statement.place + error.pos_in_stream, wrong_sign(statement, error.pos_in_stream)) from None
    except lark.exceptions.UnexpectedToken as error:
        # the end has the place of the last word before it
        place = error.token.end_pos if error.token.type == "$END" else error.token.start_pos
        raise Refused(*wrong_word(statement, error, place)) from None


def check_start(statement: Statement) -> None:
    """Refuses what begins neither as a node, nor as a pattern or a setting."""
    if EVENT_LINE.match(statement.text):
        raise Refused(statement.place, "This is a line of an event file, and not a plan in words. A source reads such a file.")
    if BEGUN.match(statement.text) or PATTERN.match(statement.text) or statement.text[0] == "`":
        return
    first, second = FIRST_WORDS.match(statement.text).groups()
    if first and first not in SETTINGS:
        raise Refused(statement.place, f"`{f'{first} {second}'.rstrip()}` is no statement. {about_statement(first, second)}")


def about_statement(word: str, behind: str) -> str:
    """What a line without `=` is likely meant as."""
    if word in OPERATORS and behind:
        return f"A node has a name in front of its operator: {'out' if word == 'output' else 'name'} = {word} {behind}."
    if word.upper() == "EVENT":
        return "A pattern begins with EVENT, and its words are in capitals."
    near = advice.near(word, SETTINGS)
    if near:
        return f"Perhaps `{near}` is meant."
    return f"A node is a name, `=`, and an operator with what it reads; a line without `=` begins with {listed((f'`{one}`' for one in SETTINGS), 'or')}."


def check_depth(statement: Statement) -> None:
    depth = 0
    for found in re.finditer(r'"(?:[^"\\\n]|\\.)*"|#[^\n]*|[()]', statement.text):
        depth += {"(": 1, ")": -1}.get(found[0], 0)
        if depth > DEEPEST:
            raise Refused(statement.place + found.start(), f"Brackets nest over {DEEPEST} deep here, and a plan has at most {DEEPEST} nodes.")


def name_of(statement: Statement) -> str:
    """The name that a statement gives, as far as it can be told; else nothing."""
    found = BEGUN.match(statement.text)
    return (found[1] or found[2].strip("`")) if found else ""


def wrong_sign(statement: Statement, place: int) -> str:
    sign = statement.text[place]
    if sign in NO_TEXT:
        return NO_TEXT[sign]
    said = elsewhere(statement.text, place)
    shown = f"`{sign}`" if sign.isprintable() else f"The sign {ord(sign):#04x}"
    return f"{shown} can't stand here. {said}".rstrip()


def elsewhere(text: str, place: int) -> str:
    return next((why for form, why in SAID_ELSEWHERE if re.match(form, text[place:place + 40])), "")


def wrong_word(statement: Statement, error, place: int) -> tuple:
    """The place of the word that can't stay, and what is said of it."""
    accepted = accepted_words(statement, sorted(error.accepts or error.expected))
    if error.token.type == "$END":
        return statement.place + place, f"The statement ends here. {may_stand(accepted)}"
    begun = begun_again(statement, place)
    if begun is not None:
        return statement.place + begun, ("This line goes on with the statement above, since it begins with a blank. A statement begins at the begin "
                                         "of its line.")
    misspelt = word_before(statement, place)
    if misspelt:
        meant = advice.near(misspelt[1], CLAUSE_WORDS)
        return statement.place + misspelt.start(1), f"`{misspelt[1]}` can't stand here. Perhaps `{meant}` is meant."
    word = str(error.token)
    keyword = advice.near(word, [one.strip("`") for one in accepted if one.startswith("`")])
    said = f"Perhaps `{keyword}` is meant." if keyword and keyword != word else elsewhere(statement.text, place)
    return statement.place + place, f"`{word}` can't stand here. {said or may_stand(accepted)}"


def begun_again(statement: Statement, place: int) -> int | None:
    """Where the line of this place begins with a name and `=`, as a statement does, though a blank stands in front."""
    line = statement.text.rfind("\n", 0, place) + 1
    name = len(statement.text[line:]) - len(statement.text[line:].lstrip(" \t")) + line
    return name if 0 < line < name and BEGUN.match(statement.text, name) and place <= BEGUN.match(statement.text, name).end() else None


def word_before(statement: Statement, place: int):
    """The word before the place, where it was taken for a short name and a word of a clause is meant."""
    before = re.search(r"(\w+)\s*\Z", statement.text[:place])
    is_taken = before and before[1] not in CLAUSE_WORDS and not is_first(statement, before) and not PATTERN.match(statement.text)
    return before if is_taken and advice.near(before[1], CLAUSE_WORDS) else None


def is_first(statement: Statement, found) -> bool:
    """Whether the word is the name or the operator of the statement."""
    begun = BEGUN.match(statement.text)
    return bool(begun) and found.start(1) < begun.end()


def accepted_words(statement: Statement, terminals) -> list:
    """What may stand at the place, in words. Of clauses those that the operator has."""
    begun = BEGUN.match(statement.text)
    op = begun[3] if begun else None
    own = clause_words(op) if op in OPERATORS else CLAUSE_WORDS
    words = [told(one) for one in terminals if one != "_LEV"]
    kept = [one for one in words if one.strip("`") not in CLAUSE_WORDS or one.strip("`") in own]
    return list(dict.fromkeys(kept))


def may_stand(words: list) -> str:
    return f"Here may stand {listed(words, 'or')}." if words else ""
