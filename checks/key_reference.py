"""Which columns the nodes of a plan can have so that each keeps the key, from the definition: every column of every node is
tried, each node after those that it reads."""


def nodes_of(document: dict) -> list:
    """The nodes with their inputs as places and the widths of their results."""
    nodes, places = [], {}
    for node in document["nodes"]:
        inputs = [places[name] for name in node.get("from", [])]
        ports = [nodes[place]["width"] for place in inputs]
        nodes.append({**node, "inputs": inputs, "ports": ports, "width": width(document["version"], node, ports)})
        places[node["name"]] = len(places)
    return nodes


def width(version: int, node: dict, ports: list) -> int:
    op = node["op"]
    if op == "source":
        return len(node["fields"])
    if op == "project":
        return len(node["keep"])
    if op in ("join", "sequence"):
        return sum(ports)
    if op == "atleast":
        return node["number"] * ports[0]
    if op == "group":
        further = len(node.get("least", [])) + len(node.get("greatest", [])) if version == 2 else 0
        return len(node["keys"]) + node["count"] + len(node["sum"]) + further
    return ports[0]


def places(ports: list, columns: list) -> list:
    return [sum(ports[:port]) + column for port, column in enumerate(columns)]


def tied(tests: list, at: list) -> bool:
    """Whether each place behind the first is compared for equality with one before it."""
    pairs = [{left, right["column"]} for left, comparison, right in tests if comparison == "=" and "column" in right]
    return all(any({at[one], at[other]} in pairs for one in range(other)) for other in range(1, len(at)))


def keeps(node: dict, columns: list, column: int) -> bool:
    op, ports = node["op"], node["ports"]
    within = all(one < port for one, port in zip(columns, ports))
    if op == "source":
        return True
    if op in ("project", "group"):
        kept = node["keep" if op == "project" else "keys"]
        return column < len(kept) and all(kept[column] == one for one in columns)
    if op in ("join", "sequence"):
        at = places(ports, columns)
        return within and tied(node["where"], at) and column in at
    if op in ("unless", "except"):
        return within and tied(node["where"], places(ports, columns)) and column == columns[0]
    if op == "atleast":
        at = places(ports[:1] * node["number"], columns[:1] * node["number"])
        return within and len(set(columns)) == 1 and tied(node["where"], at) and column in at
    return all(one == column for one in columns)


def reading_order(nodes: list) -> list:
    """The places of all nodes, each as late as may be before the node that reads it."""
    order = []

    def visit(place: int) -> None:
        if place not in order:
            for one in nodes[place]["inputs"]:
                visit(one)
            order.append(place)

    for place in reversed(range(len(nodes))):
        visit(place)
    return order


def choice(nodes: list, sources: dict):
    """Columns that all nodes keep, where some sources have these, or None."""
    order, columns = reading_order(nodes), [0] * len(nodes)

    def found(done: int) -> bool:
        if done == len(order):
            return True
        node = nodes[order[done]]
        mine = [columns[place] for place in node["inputs"]]
        for column in range(max(1, node["width"])):
            columns[order[done]] = column
            if sources.get(node["name"], column) == column and keeps(node, mine, column) and found(done + 1):
                return True
        return False

    return tuple(columns) if found(0) else None
