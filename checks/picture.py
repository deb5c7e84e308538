#!/usr/bin/env python3
"""Draws docs/picture.svg: how the lines of examples/monday/script.txt go through the network of its plan. What the nodes
send is worked out by network.py.

usage: checks/picture.py
"""
import sys
from html import escape
from pathlib import Path
from typing import NamedTuple

sys.dont_write_bytecode = True

import asked
from messages import is_change
from network import Network
from program import ROOT
from reference import change_text

FOLDER, PICTURE = ROOT / "examples/monday", ROOT / "docs/picture.svg"
LANES = {"installs": 60, "shutdowns": 160, "restarts": 260, "broken": 460, "down": 740, "machine": 980, "out": 1180}
WIDTH, TOP, STEP, GAP = 1260, 92, 24, 16
INK, LATE = "#333333", "#c0392b"
LATE_LINE = "restarts,+,2,1250,1251,press-1"
NOTES = {LATE_LINE: "late: 2100 has come already, and the alarm of press-1 is out. It is taken back at each node"}


class Arrow(NamedTuple):
    sender: str
    reader: str
    text: str


class Traced(Network):
    """A network that notes what goes over its edges."""

    def __init__(self, plan: list) -> None:
        super().__init__(plan)
        self.arrows = []

    def send(self, place: int, messages: list) -> None:
        super().send(place, messages)
        for message in filter(is_change, messages):
            text = change_text(message).decode().strip()
            readers = [node.node.name for node in self.working.values() if place in node.node.inputs]
            self.arrows += [Arrow(self.plan[place].name, reader, text) for reader in readers or [""]]


def drawn() -> str:
    lines = [line for line in (FOLDER / "script.txt").read_text().splitlines() if ",=," not in line and line != "?"]
    files = {"failed.json": (FOLDER / "failed.json").read_bytes(), "script.txt": "\n".join(lines).encode()}
    read = asked.read(["live", "failed.json", "script.txt"], files.get)
    network, parts, y = Traced(read.plan), [], TOP
    for line, step in zip(lines, read.fed, strict=True):
        network.arrows = []
        network.feed(*step)
        network.settle()
        ink = LATE if line == LATE_LINE else INK
        parts.append(text_at(8, y, line, ink, "start") + text_at(300, y, NOTES.get(line, ""), ink, "start"))
        for arrow in network.arrows:
            y += STEP
            parts.append(arrow_at(arrow, y, ink))
        y += STEP + GAP
    return picture(network, parts, y)


def picture(network: Network, parts: list, height: int) -> str:
    lanes = "".join(lane(node.name, node.op, height) for node in network.plan)
    head = f'<svg xmlns="http://www.w3.org/2000/svg" viewBox="0 0 {WIDTH} {height}" font-family="monospace" font-size="12">'
    marks = "".join(f'<marker id="{name}" markerWidth="8" markerHeight="8" refX="7" refY="4" orient="auto">'
                    f'<path d="M0,1 L7,4 L0,7 z" fill="{ink}"/></marker>' for name, ink in (("ink", INK), ("late", LATE)))
    ground = f'<rect width="{WIDTH}" height="{height}" fill="#ffffff"/>'
    return "\n".join([head, f"<defs>{marks}</defs>", ground, lanes, *parts, "</svg>"]) + "\n"


def lane(name: str, op: str, height: int) -> str:
    x = LANES[name]
    return (f'<rect x="{x - 44}" y="12" width="88" height="40" fill="#eef3f8" stroke="{INK}"/>'
            + text_at(x, 29, op, INK, "middle") + text_at(x, 45, name, INK, "middle")
            + f'<line x1="{x}" y1="52" x2="{x}" y2="{height - 8}" stroke="#cccccc"/>\n')


def arrow_at(arrow: Arrow, y: int, ink: str) -> str:
    start, name = LANES[arrow.sender], "late" if ink == LATE else "ink"
    if not arrow.reader:
        return text_at(start + 70, y + 4, "written", ink, "end")
    end = LANES[arrow.reader]
    return (f'<line x1="{start}" y1="{y}" x2="{end}" y2="{y}" stroke="{ink}" marker-end="url(#{name})"/>'
            + text_at((start + end) / 2, y - 4, arrow.text, ink, "middle"))


def text_at(x: float, y: float, text: str, ink: str, anchor: str) -> str:
    return f'<text x="{x:g}" y="{y:g}" fill="{ink}" text-anchor="{anchor}">{escape(text)}</text>' if text else ""


if __name__ == "__main__":
    PICTURE.write_text(drawn())
