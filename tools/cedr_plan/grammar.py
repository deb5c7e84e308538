"""The forms of statements and of patterns, as a grammar for lark, and the signs that they are made of."""
from __future__ import annotations

from functools import lru_cache

# A name is a plain word, or stands between backquotes. The words of clauses are no names where a short name may stand.
GRAMMAR = r"""
statement: setting | node
setting: WORD (WORD | NUMBER | DATE | TEXT)
node: name SIGN WORD (file | counted | inputs) clause*

file: TEXT (HEADER TEXT)? columns?
columns: OPEN (column (_COMMA column)* _COMMA?)? _CLOSE
column: name name? | NONE
counted: NUMBER _OF inputs
inputs: input (_COMMA input)*
input: name (_AS? name)?

clause: WHERE tests
      | (WITHIN | FOR | EVERY) span
      | BY (span | items)
      | (KEEP | SUM | LEAST | GREATEST) items
      | KEEP OPEN _CLOSE
      | COUNT (_AS path)?
      | _LEV? (STRONG | MIDDLE)
      | _LEV? (BLOCK | MEMORY) (span | INF)
items: item (_COMMA item)*
item: path ((_AS | _UAS) path)?
span: (NUMBER WORD?)+
tests: test (_AND test)*
test: side SIGN side
side: path | NUMBER | TEXT
path: name (_DOT name)*
name: WORD | QUOTED

pattern: _EVENT name _WHEN expression (_UWHERE predicates)? (_OUTPUT items)? (_WITH _LEVEL clause+)?
expression: name (_UAS? name)? | call
call: (WORD | CANCEL) OPEN argument (_COMMA argument)* _CLOSE
argument: expression | span
predicates: predicate (_UAND predicate)*
predicate: _BRACE test (_UAND test)* _END

HEADER: "header"
WHERE: "where"
WITHIN: "within"
FOR: "for"
EVERY: "every"
BY: "by"
KEEP: "keep"
COUNT: "count"
SUM: "sum"
LEAST: "least"
GREATEST: "greatest"
STRONG: "strong"
MIDDLE: "middle"
BLOCK: "block"
MEMORY: "memory"
INF: "inf"
_LEV: "level"
_OF: "of"
_AS: "as"
_AND: "and"
_EVENT: "EVENT"
_WHEN: "WHEN"
_UWHERE: "WHERE"
_OUTPUT: "OUTPUT"
_WITH: "WITH"
_LEVEL: "LEVEL" | "CONSISTENCY"
_UAS: "AS"
_UAND: "AND"
CANCEL.2: "CANCEL-WHEN"

_COMMA: ","
_DOT: "."
OPEN: "("
_CLOSE: ")"
_BRACE: "{"
_END: "}"
NONE: "-"
SIGN: /[=<>!~≠≤≥]+/
DATE.2: /[0-9]{4}-[0-9]{2}-[0-9]{2}(?:T[0-9:.]+(?:Z|[+-][0-9:]+)?)?/
NUMBER: /-?[0-9]+(?:\.[0-9]+)?/
WORD: /[^\W\d]\w*/
QUOTED: /`(?:[^`\\\x00-\x1f]|\\.)*`/
TEXT: /"(?:[^"\\\x00-\x1f]|\\.)*"/
%ignore /[ \t\r\n]+/
%ignore /#[^\n]*/
"""
# What a sentence calls a sign or a kind of word.
TOLD = {
    "WORD": "a name", "QUOTED": "a name", "TEXT": "a text between double quotes", "NUMBER": "a number",
    "DATE": "a date", "SIGN": "a comparison", "OPEN": "`(`", "_CLOSE": "`)`", "_COMMA": "a comma", "_DOT": "a dot",
    "_BRACE": "`{`", "_END": "`}`", "NONE": "`-`", "$END": "the end of the statement", "_OF": "`of`", "_AS": "`as`", "_AND": "`and`",
    "_EVENT": "`EVENT`", "_WHEN": "`WHEN`", "_UWHERE": "`WHERE`", "_OUTPUT": "`OUTPUT`", "_WITH": "`WITH`",
    "_LEVEL": "`LEVEL`", "_UAS": "`AS`", "_UAND": "`AND`", "CANCEL": "`CANCEL-WHEN`",
}
CLAUSE_WORDS = ("where", "within", "for", "every", "by", "keep", "count", "sum", "least", "greatest", "strong", "middle",
                "block", "memory")
# A short name that is one of these stands between backquotes.
RESERVED = frozenset([*CLAUSE_WORDS, "as", "and", "level", "EVENT", "WHEN", "WHERE", "OUTPUT", "WITH",
                      "LEVEL", "CONSISTENCY", "AS", "AND"])


def told(terminal: str) -> str:
    return TOLD.get(terminal) or f"`{terminal.lower()}`"


@lru_cache(None)
def parser(builder):
    """The parser of both forms. It hands each part that it has read to the builder."""
    import lark

    return lark.Lark(GRAMMAR, parser="lalr", lexer="contextual", start=["statement", "pattern"], transformer=builder)
