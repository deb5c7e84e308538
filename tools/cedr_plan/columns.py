"""The columns of nodes by name, and what a node's tests and lists call the columns of its inputs."""
from __future__ import annotations

from typing import NamedTuple

import cedr_explain.advice as advice
from cedr_plan.refused import Refused, listed
from cedr_plan.tree import Path, spelt_path

ORDINALS = ("first", "second", "third", "fourth")


class Column(NamedTuple):
    """A column of a node: the parts of its name, and its type."""
    name: tuple
    type: str

    def told(self) -> str:
        return f"{spelt_path(self.name)} ({self.type})"


class Reach:
    """The columns that a node counts through, by the names that it calls them. A column may have a second name."""

    def __init__(self, columns: list, second: list | None = None, whose: str = "") -> None:
        self.columns, self.second, self.whose = columns, second or [None] * len(columns), whose

    def places(self, parts: tuple) -> list:
        return [place for place, (column, second) in enumerate(zip(self.columns, self.second)) if parts in (column.name, second)]

    def find(self, path: Path) -> int:
        """The number of the column of this name."""
        found = self.places(path.parts)
        if len(found) == 1:
            return found[0]
        shown = spelt_path(path.parts)
        if found:
            own = " and ".join(f"column {place}" for place in found)
            raise Refused(path.place, f"`{shown}` is the name of {own}. Write {self.apart(found)}.")
        raise Refused(path.place, f"There is no column `{shown}` here. {self.meant(path.parts)}".rstrip())

    def apart(self, places: list) -> str:
        """Names that only one of these columns has each."""
        names = [next((one for one in (self.second[place], self.columns[place].name) if one and len(self.places(one)) == 1), None)
                 for place in places]
        return listed([f"`{spelt_path(one)}`" for one in names if one], "or")

    def meant(self, parts: tuple) -> str:
        """What is likely meant by the name of a column that isn't there, and which columns are."""
        if not self.columns:
            return "What the node reads has no columns."
        names = [column.name for column in self.columns]
        ends = [one for one in names if one[-len(parts):] == parts] or [one for one in names if one[-1] == parts[-1]]
        shown = {spelt_path(one): one for one in names}
        near = advice.near(spelt_path(parts), shown) or self.near_end(parts, names)
        likely = ends or ([shown[near]] if near in shown else [])
        hint = f"Perhaps {listed((f'`{spelt_path(one)}`' for one in likely), 'or')} is meant. " if likely else ""
        return f"{hint}Its columns are {', '.join(column.told() for column in self.columns)}."

    def near_end(self, parts: tuple, names: list) -> str:
        """A column whose last part is near the last part."""
        lasts = {one[-1]: spelt_path(one) for one in names}
        return lasts.get(advice.near(parts[-1], lasts), "")


def of_one(name: str, short: str | None, columns: list) -> Reach:
    """What a node of one input reaches: its columns by their own names, or behind the input's name."""
    return Reach(columns, [(short or name, *column.name) for column in columns])


def behind(short: str, columns: list) -> list:
    return [Column((short, *column.name), column.type) for column in columns]


def prefixed(word: str, name: tuple) -> tuple:
    """The name of a sum, a least or a greatest field of this column: i.load becomes i.sum_load."""
    return (*name[:-1], f"{word}_{name[-1]}")


def check_unlike(columns: list, places: list, whose: str) -> None:
    """Refuses two columns of one name, at the place of the second one."""
    seen = {}
    for column, place in zip(columns, places):
        if column.name in seen:
            raise Refused(place, f"Two columns of {whose} are called `{spelt_path(column.name)}`. Give one another name behind `as`.")
        seen[column.name] = place
