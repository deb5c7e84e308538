"""The columns of a source: their names and types as they stand in the words, or names from the header of a CSV."""
from __future__ import annotations

import csv

import cedr_explain.advice as advice
import cedr_explain.outside as outside
from cedr_explain.language import MOST_FIELDS, TYPES
from cedr_plan.columns import Column, check_unlike
from cedr_plan.refused import Refused
from cedr_plan.tree import File, Node, spelt, text_of


def columns_of(node: Node) -> list:
    """The columns of a source, whose statement this is."""
    subject = node.subject
    if not isinstance(subject, File):
        raise Refused(node.op.place, 'A `source` reads a file, whose name stands between double quotes: '
                                     f'{spelt(node.name.text)} = source "{node.name.text}.csv" (machine text, load int).')
    if subject.columns is None:
        raise Refused(subject.file.place, "The columns of its events are missing. They stand behind the file with their types: "
                                          "(machine text, load int); () says that there are none.")
    columns = by_header(subject) if subject.header else [own_column(one) for one in subject.columns]
    check_unlike(columns, [one.place for one in subject.columns], f"`{node.name.text}`")
    if len(columns) > MOST_FIELDS:
        raise Refused(subject.columns[MOST_FIELDS].place, f"This is column {MOST_FIELDS + 1} of the source, and it may have {MOST_FIELDS}.")
    return columns


def by_header(subject: File) -> list:
    """The columns whose names are in the first line of a CSV. A `-` passes over one that isn't of the events."""
    names = header_of(subject.header)
    if len(names) != len(subject.columns):
        raise Refused(subject.header.place, f"{subject.header.text} names {len(names)} columns, {', '.join(names)}, and "
                                            f"{len(subject.columns)} types stand here. Each has its type, or a `-` where it is no "
                                            "column of the events.")
    columns = []
    for name, column in zip(names, subject.columns):
        if len(column.words) != 1:
            raise Refused(column.place, "Behind a `header` the types alone stand here, since the file has the names.")
        if not is_dash(column.words[0]):
            columns.append(Column((name,), a_type(column.words[0])))
    return columns


def is_dash(word) -> bool:
    return getattr(word, "kind", "") == "NONE"


def own_column(column) -> Column:
    if len(column.words) != 2:
        word = column.words[0]
        if is_dash(word):
            raise Refused(column.place, "A `-` stands where a `header` names a column that is none of the events.")
        if word.text in TYPES:
            raise Refused(column.place, f"The column of the type `{word.text}` has no name. It stands in front, as in machine {word.text}.")
        raise Refused(column.place, f"The column `{word.text}` has no type. Write {spelt(word.text)} text, or {spelt(word.text)} int for a whole "
                                    "number.")
    name, kind = column.words
    return Column((name.text,), a_type(kind))


def a_type(word) -> str:
    if word.text not in TYPES:
        about = advice.about_type(word.text).replace('"', "`")
        raise Refused(word.place, f"`{word.text}` is no type. It must be `text` or `int`. {about}".rstrip())
    return word.text


def header_of(word) -> list:
    """The names in the first line of a CSV."""
    name = text_of(word)
    try:
        with open(name, newline="", encoding="utf-8-sig") as file:
            names = next(csv.reader([file.readline(1_048_576)], strict=True), [])
    except OSError as error:
        raise Refused(word.place, f"The file {word.text}, whose header has the names, can't be read: "
                                  f"{outside.why_not(name) or error.strerror}.") from None
    except (ValueError, csv.Error):
        raise Refused(word.place, f"The first line of {word.text} isn't the header of a CSV in UTF-8.") from None
    if not all(names) or not names:
        raise Refused(word.place, f"The first line of {word.text} has a column without a name.")
    return names
