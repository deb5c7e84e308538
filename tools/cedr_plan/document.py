"""A plan as the text of a JSON document, laid out as people would: one node a line."""
from __future__ import annotations

import json


def laid_out(document: dict) -> str:
    front = "".join(f"{json.dumps(name)}:{json.dumps(value)}," for name, value in document.items() if name != "nodes")
    nodes = ",\n ".join(json.dumps(node, ensure_ascii=False, separators=(",", ":")) for node in document["nodes"])
    return f'{{{front}"nodes":[\n {nodes}]}}\n'
