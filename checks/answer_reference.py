"""What a command must write, by the definitions alone.

Some of what is written is free: which repairs a node sends, and so which changes a port with a finite memory forgets
where an operator feeds it, and the changes of `stream` where an operator feeds an output that isn't strong. There
the answer's own choice is read from it, held to what is fixed, and the rest of the answer must follow from it.
`serial` and `audit` feed their sources in rounds, so there a port behind operators has one right list too, as long as no
message changes more than one row of the result of a node before it: then no repair is a choice.
"""
import math
from collections import Counter

import made
from aligner import aligned
from answer_lines import (LIST_MARK, PROMISE, REACH_MARK, Unlawful, change_of, forgotten_of, lines_of, mark_of,
                          promise_of, row_of)
from asked import ON_THREADS, Asked
from messages import Add, Cut, End, Mark, apply, in_one_list, in_order, is_change, sync, table_of
from network import fed_in_rounds
from network_texts import forgotten_text, message_text, rows_text
from query_reference import by_place, output_place, port_standing, query, standing
from reference import change_text, time_text


def expected(read: Asked, out: bytes) -> bytes:
    """What had to be written where this was: the same, where it is right."""
    if read.command == "save":
        return read.text
    try:
        if read.command == "live":
            return live(read.plan, read.fed, lines_of(out))
        if read.command == "follow":
            return followed(read, lines_of(out))
        if read.command == "stream" and read.fed and read.status:
            return stream_front(read.plan, read.fed, out)
        return b"" if read.status else whole_answer(read, out)
    except Unlawful as reason:
        return f"something else, since {reason}\n".encode()


def messages_in(fed: list) -> list:
    return list(map(in_one_list, fed))


def whole_answer(read: Asked, out: bytes) -> bytes:
    plan, lists = read.plan, [messages + [End()] for messages in messages_in(read.fed)]
    tables = list(map(table_of, lists))
    if read.command == "make":
        return made.summary(in_order(query(plan, tables, {})))
    lines = lines_of(out)
    front = lines.index(LIST_MARK) if LIST_MARK in lines else len(lines)
    fixed = {} if read.command in ON_THREADS else fed_in_rounds(plan, read.fed).fixed()
    left_out = lawful_list(plan, lists, fixed, lines[front + 1 :])
    answer = query(plan, tables, left_out)
    text = stream(plan, lists, answer, lines[:front]) if read.command == "stream" else rows_text(in_order(answer))
    if read.command != "audit" and not any(node.forgets for node in plan):
        return text
    return text + LIST_MARK + b"".join(forgotten_text(plan[place].name, port, one)
                                       for (place, port), found in left_out.items() for one in found)


def lawful_list(plan: list, lists: list, fixed: dict, lines: list) -> dict:
    """What each port forgot, by its place and number. Ports of sources and fixed ones have one right list, and others a
    lawful one."""
    told, sources, left_out = {}, by_place(plan, lists), {}
    for place, port, one in (forgotten_of(line, plan) for line in lines):
        told.setdefault((place, port), []).append(one)
    for place, node in enumerate(plan):
        for port, feeding in enumerate(node.inputs if node.forgets else []):
            if feeding in sources:
                left_out[place, port] = aligned(node.block, node.memory, sources[feeding])[0].forgotten
            elif (place, port) in fixed:
                left_out[place, port] = fixed[place, port]
            else:
                left_out[place, port] = told.get((place, port), [])
                check_forgotten(node.memory, left_out[place, port])
    return left_out


def check_forgotten(memory: int, found: list) -> None:
    """Each is late, or it isn't and is a cut; its row doesn't begin recently; the high never falls."""
    before = 0
    for high, change, cause in ((one.high, one.change, one.cause) for one in found):
        right = "late" if sync(change) + memory < high else "orphan" if isinstance(change, Cut) else "kept"
        if cause != right:
            raise Unlawful(f"behind a high of {high} this is {right}: {change_text(change)}")
        if change.row.begin + memory >= high or high < before:
            raise Unlawful(f"this isn't forgotten behind a high of {high}, and {before} before: {change_text(change)}")
        before = high


def stream(plan: list, lists: list, answer: Counter, lines: list) -> bytes:
    output, sources = plan[output_place(plan)], by_place(plan, lists)
    if output.inputs[0] in sources:
        return passed_text(output, sources[output.inputs[0]])
    if output.block == math.inf:
        return additions(answer)
    if led_to(lines, output.types) != answer:
        raise Unlawful(f"the changes don't lead to the rows {rows_text(in_order(answer))}")
    return b"".join(lines)


def additions(answer: Counter) -> bytes:
    return b"".join(change_text(Add(row)) for row in in_order(answer))


def passed_text(output, messages: list) -> bytes:
    _, passed_on = aligned(output.block, output.memory, messages)
    return b"".join(change_text(one) for one in passed_on if is_change(one))


def led_to(lines: list, types: list) -> Counter:
    """The table that change lines lead to, each of which may follow behind those before it."""
    table = Counter()
    for line in lines:
        take_change(table, line, types)
    return table


def take_change(table: Counter, line: bytes, types: list):
    """Applies the change of a line, which may follow behind those that led to the table."""
    change = change_of(line, types)
    if change_text(change) != line:
        raise Unlawful(f"this change is written as {change_text(change)}: {line}")
    if isinstance(change, Cut) and not table[change.row]:
        raise Unlawful(f"no such row is there: {line}")
    apply(table, change)
    return change


def stream_front(plan: list, fed: list, out: bytes) -> bytes:
    """What was written of a stream some of whose sources aren't accepted: a front of what the good lines give."""
    lists = messages_in(fed)
    output, sources = plan[output_place(plan)], by_place(plan, lists)
    if output.inputs[0] in sources:
        most = passed_text(output, sources[output.inputs[0]])
    elif output.block == math.inf and not any(node.forgets for node in plan):
        most = additions(query(plan, list(map(table_of, lists)), {}))
    else:
        led_to([line for line in lines_of(out) if line.endswith(b"\n")], output.types)
        return out
    return out if most.startswith(out) else most


def live(plan: list, steps: list, lines: list) -> bytes:
    """The rows and the guarantee at each `?`. Where they are free, those that were written, if they may be."""
    lists, text = [[] for node in plan if node.op == "source"], b""
    for step in steps:
        if step == "?":
            shown = next((place for place, line in enumerate(lines) if line.startswith(REACH_MARK)), len(lines))
            text += shown_text(plan, lists, lines[: shown + 1])
            lines = lines[shown + 1 :]
        else:
            source, messages = step
            lists[source] += messages
    return text


def followed(read: Asked, lines: list) -> bytes:
    """The changes and the guarantees that the output gives behind what it gave before. Where they are free, those that were
    written, if they lead to what the output has then and none breaks a guarantee before it."""
    if not read.plan:
        return b""
    plan, before = read.plan, fed_lists(read.plan, read.before)
    behind = [old + new for old, new in zip(before, fed_lists(read.plan, read.fed))]
    output = plan[output_place(plan)]
    sources = [by_place(plan, lists).get(output.inputs[0]) for lists in (before, behind)]
    if sources[1] is not None:
        first, whole = (aligned(output.block, output.memory, messages)[1] for messages in sources)
        return b"".join(map(message_text, whole[len(first) :]))
    (rows, mark), standing_then = output_standing(plan, before), output_standing(plan, behind)
    rows = Counter(rows)
    for line in lines:
        mark = take_line(rows, mark, line, output.types)
    if (rows, mark) != standing_then:
        raise Unlawful(f"the lines lead to the guarantee {mark} and the rows {rows_text(in_order(rows))}")
    return b"".join(lines)


def fed_lists(plan: list, steps: list) -> list:
    """The messages of each source, in these steps."""
    lists = [[] for node in plan if node.op == "source"]
    for source, messages in steps:
        lists[source] += messages
    return lists


def output_standing(plan: list, lists: list) -> tuple[Counter, int]:
    """The rows that the output of a plan without finite memories has given, and its guarantee."""
    output = plan[output_place(plan)]
    return port_standing(output, output.inputs[0], by_place(plan, lists), standing(plan, lists))


def take_line(rows: Counter, mark: int, line: bytes, types: list) -> int:
    """Applies a line of a stream with guarantees, and answers the guarantee behind it."""
    if line.startswith(PROMISE):
        time = promise_of(line)
        if time <= mark or message_text(Mark(time)) != line:
            raise Unlawful(f"this guarantee says nothing behind {mark}: {line}")
        return time
    if sync(take_change(rows, line, types)) < mark:
        raise Unlawful(f"this line breaks the guarantee {mark}: {line}")
    return mark


def shown_text(plan: list, lists: list, lines: list) -> bytes:
    output, sources, states = plan[output_place(plan)], by_place(plan, lists), standing(plan, lists)
    state = states[output.inputs[0]]
    port = port_standing(output, output.inputs[0], sources, states)
    rows = port[0] if port else free_rows(output, lines, state)
    mark = state[1] if state else mark_of(lines[-1] if lines else b"")
    return rows_text(in_order(rows)) + f". {time_text(mark)}\n".encode()


def free_rows(output, lines: list, state) -> Counter:
    """The rows that were written. Where the output only waits, they are some of its table, with all that are final."""
    rows = Counter(row_of(line, output.types) for line in lines[:-1])
    if state and not output.forgets:
        table, mark = state
        final = Counter({row: count for row, count in table.items() if row.end < mark})
        if rows - table or final - rows:
            raise Unlawful(f"only these rows may be shown, and all that end below {mark}: {rows_text(in_order(table))}")
    return rows
