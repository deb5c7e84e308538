"""What the commands write, from one of the runs that the definitions allow."""
import asked
import made
from network import Network, fed_in_rounds, fed_on_threads
from messages import Mark, is_change
from reference import change_text, row_text, time_text


def answer(words: list, find) -> tuple[int, bytes, bytes]:
    """The exit status, standard output and standard error of a command."""
    read = asked.read(words, find)
    if read.command == "save":
        return read.status, read.text, read.err
    if read.command == "live":
        return read.status, live(read.plan, read.fed), read.err
    if read.command == "follow":
        return read.status, follow(read.plan, read.before, read.fed), read.err
    if read.status:
        return read.status, b"", read.err
    network = (fed_on_threads if read.command in asked.ON_THREADS else fed_in_rounds)(read.plan, read.fed)
    return 0, TEXTS[read.command](network), b""


def rows_text(rows: list) -> bytes:
    return b"".join(map(row_text, rows))


def result(network: Network) -> bytes:
    return rows_text(network.answer()) + (forgotten(network) if any(node.forgets for node in network.plan) else b"")


def audit(network: Network) -> bytes:
    return rows_text(network.answer()) + forgotten(network)


def stream(network: Network) -> bytes:
    changes = b"".join(map(change_text, network.changes))
    return changes + (forgotten(network) if any(node.forgets for node in network.plan) else b"")


def forgotten(network: Network) -> bytes:
    lines = [forgotten_text(network.plan[place].name, port, one) for place, port, one in network.forgotten()]
    return b"--\n" + b"".join(lines)


def forgotten_text(name: str, port: int, one) -> bytes:
    front = f"{name},{port},{one.cause},{time_text(one.high)},"
    return front.encode() + change_text(one.change)


def summary(network: Network) -> bytes:
    return made.summary(network.answer())


def live(plan: list, steps: list) -> bytes:
    network, text = Network(plan) if plan else None, b""
    for step in steps:
        if step == "?":
            text += rows_text(network.answer()) + f". {time_text(network.reach())}\n".encode()
        else:
            network.feed(*step)
            network.settle()
    return text


def follow(plan: list, before: list, steps: list) -> bytes:
    """What the output gives for these steps, behind what it gave before."""
    network = Network(plan) if plan else None
    for step in before:
        network.feed(*step)
        network.settle()
    first = len(network.given) if network else 0
    for step in steps:
        network.feed(*step)
        network.settle()
    return b"".join(map(message_text, network.given[first:])) if network else b""


def message_text(message) -> bytes:
    """The line of a change or of a guarantee. An end has none."""
    if is_change(message):
        return change_text(message)
    return b"=,%s\n" % time_text(message.time).encode() if isinstance(message, Mark) else b""


TEXTS = {"serial": result, "run": result, "audit": audit, "stream": stream, "make": summary}
