"""`cedr follow` where lines come slowly, and where what is outside of it ends, fails or is refused. What must come is written
by hand."""
import os
import subprocess
import time

import network_cases
import terminal
from following import Follower, resident, write_all
from network_cases import MIDDLE, WEAK, lines, passing
from networks import NetworkCheck, write_files
from program import USAGE

PAUSE, START, FIRST_AT_MOST, PATIENCE = 0.3, 0.5, 0.2, 5
PLAN, STRONG_PLAN = passing(MIDDLE), passing(network_cases.STRONG)
STDIN = ["follow", "plan.json", "/dev/stdin"]
# Nobody writes to this pipe: a program that opens it waits.
SILENT = "silent"

# Each line, and what is written and told before the next one. Of event 1 it knows nothing more behind the guarantee of 6.
SLOW = [
    ("s,+,1,1,10,a", "+,1,10,a", ""), ("s,-,1,5", "-,5,1,10,a", ""), ("", "", ""), ("s,=,3", "=,3", ""), ("?", "", ""),
    ("s,+,2,2,9,b", "", "6 fault 9 sync 2 mark 3"), ("s,+,2,4,9,b", "+,4,9,b", ""),
    ("s,~,2,6,12,c", "-,4,4,9,b / +,6,12,c", ""), ("s,=,3", "", ""), ("t,=,9", "", "10 fault 2"),
    ("s,=,6", "=,6", ""), ("s,-,1,4", "", "12 fault 7"),
    ("s,+,1,6,7,d", "+,6,7,d", ""), ("s,-,2,20", "", "14 fault 8 begin 6 end 12"), ("s,=,inf", "=,inf", ""),
]
# The same for a strong output, which writes rows that are final, and a guarantee as far as no row is held.
SLOW_STRONG = [
    ("s,+,1,1,5,a", "", ""), ("s,+,2,2,9,b", "", ""), ("s,=,3", "=,1", ""), ("s,=,6", "+,1,5,a / =,2", ""),
    ("x", "", "5 fault 2"), ("s,+,1,7,8,c", "", ""), ("s,=,10", "+,7,8,c / +,2,9,b / =,10", ""),
]


def told(text: str, name: str = "/dev/stdin") -> bytes:
    return f"events {name} line {text}\n".encode() if text else b""


def check_slow(check: NetworkCheck) -> str:
    """Lines that come one by one with a pause between them, of which each is answered before the next one."""
    delays = []
    for plan, table in ((PLAN, SLOW), (STRONG_PLAN, SLOW_STRONG)):
        delays += check_slowly(check, plan, table)
    if delays and delays[0] > FIRST_AT_MOST:
        check.compare("the first answer's delay", {"plan.json": PLAN}, (0, f"{FIRST_AT_MOST} s".encode(), b""),
                      (0, f"{delays[0]:.3f} s".encode(), b""))
    shown = [f"{1_000 * one:.1f}" for one in delays or [0]]
    return (f"{len(SLOW) + len(SLOW_STRONG)} lines that come slowly, the first one answered in {shown[0]} ms, all of them "
            f"within {max(map(float, shown))} ms")


def check_slowly(check: NetworkCheck, plan: bytes, table: list) -> list:
    """Compares what comes of each line, and answers after how long the last of it came."""
    files = {"plan.json": plan, "x.txt": lines(" / ".join(line for line, _, _ in table))}
    write_files(check.folder, files)
    follower = Follower(check, STDIN)
    time.sleep(START)
    out, err, delays = b"", b"", []
    for number, (line, written, fault) in enumerate(table, 1):
        sent = time.monotonic()
        follower.send(lines(line) or b"\n")
        time.sleep(PAUSE)
        out, err = out + lines(written), err + told(fault)
        came = follower.process.poll(), follower.out.text, follower.err.text
        check.compare(f"within {PAUSE} s of line {number}", files, (None, out, err), came)
        delays += [heard.at - sent for heard in (follower.out, follower.err) if heard.at > sent]
    check.compare("at the end of slow lines", files, (3, out, err), follower.end())
    return delays


def check_outside(check: NetworkCheck) -> str:
    """What is outside: names, pipes and files. Answers how many cases there were."""
    write_files(check.folder, {"plan.json": PLAN})
    os.mkfifo(check.folder / SILENT)
    cases = [check_words, check_missing, check_ends, check_checkpoint, check_fifo, check_gone_reader, check_full_device,
             check_endless_line, check_no_plan, check_no_checkpoint, check_closed_error, check_refused_read]
    count = sum(case(check) for case in cases)
    (check.folder / SILENT).unlink()
    return f"{count} cases of files, pipes and refusals by hand"


def compare(check: NetworkCheck, name: str, files: dict, expected: tuple, came: tuple) -> int:
    check.compare(name, {"plan.json": PLAN, **files}, expected, came)
    return 1


def answers(check: NetworkCheck, table: list) -> int:
    """Compares what comes of files and words: each with its name and what must come."""
    return sum(compare(check, name, files, expected, check.answer({"plan.json": PLAN, **files}, words))
               for name, files, words, expected in table)


def check_words(check: NetworkCheck) -> int:
    table = [["follow"], ["follow", "plan.json"], ["follow", "plan.json", "c.txt", "x.txt", "y.txt"],
             ["Follow", "plan.json", SILENT], ["follows", "plan.json", SILENT], ["follow", "3", "plan.json", SILENT, ""]]
    return answers(check, [(f"the words {words}", {}, words, (1, b"", USAGE)) for words in table])


def check_missing(check: NetworkCheck) -> int:
    refused = 4, b"", b"read fault\n"
    checkpoint = {"c.txt": b"checkpoint,1\nsource,s,0\nend\n"}
    return answers(check, [
        ("no script", {}, ["follow", "plan.json", "none.txt"], refused),
        ("a folder as the script", {"folder": None}, ["follow", "plan.json", "folder"], refused),
        ("no plan", {}, ["follow", "none.json", SILENT], refused),
        ("no checkpoint", {}, ["follow", "plan.json", "none.txt", SILENT], refused),
        ("a checkpoint and no script", checkpoint, ["follow", "plan.json", "c.txt", "none.txt"], refused),
    ])


def check_ends(check: NetworkCheck) -> int:
    """How a script may end. Its end isn't that of its sources."""
    words = ["follow", "plan.json", "x.txt"]
    table = [("an empty script", b"", (0, b"", b"")), ("line feeds alone", b"\n\r\n\n", (0, b"", b"")),
             ("a script that ends in a line", b"s,+,1,1,2,a\ns,=,1", (0, b"+,1,2,a\n=,1\n", b"")),
             ("a script that ends in a faulty line", b"s,+,1,1,2,a\ns,=,1,", (3, b"+,1,2,a\n", told("2 fault 2", "x.txt"))),
             ("a script that ends with a carriage return", b"s,=,1\n\r", (0, b"=,1\n", b"")),
             ("faulty lines alone", b"x\ny", (3, b"", told("1 fault 2", "x.txt") + told("2 fault 2", "x.txt")))]
    held = {"plan.json": STRONG_PLAN, "x.txt": b"s,+,1,1,5,a\n?\n"}
    count = answers(check, [(name, {"x.txt": script}, words, expected) for name, script, expected in table])
    return count + answers(check, [("a row that is held at the end", held, words, (0, b"", b""))])


CHECKPOINT = lines("checkpoint,1 / source,s,10 / 1,2,5,a / 2,3,10,b / end")
# Behind this checkpoint event 1 is forgotten, and event 2 isn't before the guarantee of 11.
BEHIND = lines("s,-,1,4 / s,+,1,10,12,c / s,-,2,9 / s,+,2,10,11,d / s,=,10 / s,=,11 / s,+,2,11,12,e")


def check_checkpoint(check: NetworkCheck) -> int:
    """What is over at a checkpoint is forgotten, and what was shown there isn't written."""
    words = ["follow", "plan.json", "c.txt", "x.txt"]
    files = {"c.txt": CHECKPOINT, "x.txt": BEHIND}
    faults = told("1 fault 7", "x.txt") + told("3 fault 9 sync 9 mark 10", "x.txt") + told("4 fault 6", "x.txt")
    held = {**files, "plan.json": STRONG_PLAN, "x.txt": b"s,=,11\n"}
    return answers(check, [
        ("a checkpoint, and events that are over", files, words, (3, lines("+,10,12,c / =,11 / +,11,12,e"), faults)),
        ("a checkpoint, and a row that was held", held, words, (0, lines("+,3,10,b / =,11"), b"")),
        ("a checkpoint, and an empty script", {**files, "x.txt": b""}, words, (0, b"", b"")),
    ])


def check_fifo(check: NetworkCheck) -> int:
    """A named pipe whose writer goes in the middle of a line."""
    write_files(check.folder, {"plan.json": PLAN})
    follower = Follower(check, ["follow", "plan.json", "script"], "script")
    follower.send(b"s,+,1,1,2,a\ns,-,1,")
    follower.wait_for(lambda: follower.out.text, PATIENCE)
    compare(check, "a named pipe, while it is written", {}, (None, b"+,1,2,a\n"), (follower.process.poll(), follower.out.text))
    follower.send(b"1\ns,=,7\ns,-,1")
    compare(check, "a named pipe whose writer goes", {}, (3, b"+,1,2,a\n-,1,1,2,a\n=,7\n", told("4 fault 2", "script")),
            follower.end())
    return 2


def check_gone_reader(check: NetworkCheck) -> int:
    """Where nobody reads what is written it ends at once, and doesn't wait for the script."""
    write_files(check.folder, {"plan.json": PLAN})
    reader, writer = os.pipe()
    with subprocess.Popen([check.program, *STDIN], cwd=check.folder, bufsize=0, stdin=subprocess.PIPE, stdout=writer,
                          stderr=subprocess.PIPE) as process:
        os.close(writer)
        write_all(process.stdin.fileno(), b"s,+,1,1,2,a\n")
        first = os.read(reader, 100)
        os.close(reader)
        write_all(process.stdin.fileno(), b"s,+,2,1,2,b\n")
        status = ended_within(process)
        process.stdin.close()
        err = process.stderr.read()
    return compare(check, "a reader that goes", {}, (5, b"+,1,2,a\n", b"write fault\n"), (status, first, err))


def ended_within(process: subprocess.Popen):
    """The status of a process, or none where it still runs after a while and is killed."""
    try:
        return process.wait(PATIENCE)
    except subprocess.TimeoutExpired:
        process.kill()
        return None


def check_full_device(check: NetworkCheck) -> int:
    table = [("rows", b"s,+,1,1,2,a\n", (5, b"", b"write fault\n")), ("a guarantee", b"s,=,1\n", (5, b"", b"write fault\n")),
             ("no line", b"?\n", (0, b"", b"")), ("a faulty line", b"x\n", (3, b"", told("1 fault 2", "x.txt")))]
    with open("/dev/full", "wb") as full:
        for name, script, expected in table:
            files = {"plan.json": PLAN, "x.txt": script}
            compare(check, f"{name} to a full device", files, expected,
                    check.answer(files, ["follow", "plan.json", "x.txt"], full))
    return len(table)


# So much of a line that goes on is sent before it must have been told of, and in all.
SOON, ALL, MOST_MEMORY = 3_000_000, 48_000_000, 30


def check_endless_line(check: NetworkCheck) -> int:
    """A line that goes on is told of while it does, once, and not kept. Lines behind it count."""
    write_files(check.folder, {"plan.json": PLAN})
    follower = Follower(check, STDIN)
    follower.send(b"s,+,1,1,2,a\n")
    follower.wait_for(lambda: follower.out.text, PATIENCE)
    before = resident(follower.process) if follower.process.poll() is None else 0
    follower.send(b"s,+,2,1,2," + b"a" * SOON)
    follower.has_said(b"+,1,2,a\n", told("2 fault 1"), PATIENCE)
    compare(check, "a line that goes on", {}, (None, b"+,1,2,a\n", told("2 fault 1")),
            (follower.process.poll(), follower.out.text, follower.err.text))
    follower.send(b"a" * (ALL - SOON))
    more = resident(follower.process) - before if follower.process.poll() is None else 0
    if more >= MOST_MEMORY:
        compare(check, "the memory of a line that goes on", {}, (0, f"below {MOST_MEMORY} MB".encode(), b""),
                (0, f"{more:.1f} MB".encode(), b""))
    follower.send(b"\ns,+,3,1,2,c\ns,+,2,1,2," + b"a" * SOON)
    expected = 3, b"+,1,2,a\n+,1,2,c\n", told("2 fault 1") + told("4 fault 1")
    return 2 + compare(check, "a line that is too long, and a last one", {}, expected, follower.end())


def check_no_plan(check: NetworkCheck) -> int:
    """A plan that can't be followed is told of before anything else is asked for."""
    weak, faulty = passing(WEAK), passing('{"block":9,"memory":5}')
    unsaved, told_of = (2, b"", b"plan fault 15 node 2\n"), (2, b"", b"plan fault 7 node 2\n")
    operands = [[SILENT], ["none.txt"], [SILENT, "x.txt"], ["none.txt", SILENT]]
    return answers(check, [(f"{name}, and {words}", {"plan.json": plan}, ["follow", "plan.json", *words], expected)
                           for name, plan, expected in (("a finite memory", weak, unsaved), ("a faulty plan", faulty, told_of),
                                                        ("a finite block", passing('{"block":9,"memory":"inf"}'), unsaved))
                           for words in operands])


def check_no_checkpoint(check: NetworkCheck) -> int:
    """A checkpoint that isn't one of the plan is told of before the script is asked for."""
    table = [("of another source", b"checkpoint,1\nsource,t,0\nend\n", 2),
             ("that was cut off", b"checkpoint,1\nsource,s,0\n", 3), ("without a byte", b"", 1),
             ("of other types", b"checkpoint,1\nsource,s,0\n1,1,2,a,5\nend\n", 3)]
    return answers(check, [(f"a checkpoint {name}, and {script}", {"c.txt": data}, ["follow", "plan.json", "c.txt", script],
                            (7, b"", b"checkpoint line %d\n" % line))
                           for name, data, line in table for script in (SILENT, "none.txt")])


def close_error() -> None:
    os.close(2)


def check_closed_error(check: NetworkCheck) -> int:
    """It goes on where nothing can be told of a faulty line."""
    write_files(check.folder, {"plan.json": PLAN})
    reader, gone = os.pipe()
    os.close(reader)
    with open("/dev/full", "wb") as full:
        ways = [("no standard error", {"stderr": None, "preexec_fn": close_error}),
                ("a standard error that nobody reads", {"stderr": gone}), ("a standard error on a full device", {"stderr": full})]
        for name, settings in ways:
            follower = Follower(check, STDIN, **settings)
            follower.send(b"x\n" + b"s,+,1,1,2,a\ny\n")
            follower.wait_for(lambda came=follower.out: came.text, PATIENCE)
            follower.send(b"s,-,2,1\ns,=,1\n")
            compare(check, name, {}, (3, b"+,1,2,a\n=,1\n", b""), follower.end())
    os.close(gone)
    return len(ways)


def check_refused_read(check: NetworkCheck) -> int:
    """A read that is refused behind one that gave a line. What came before is written."""
    write_files(check.folder, {"plan.json": PLAN})
    try:
        words = ["follow", "plan.json", terminal.NAME]
        status, out, err = terminal.refused_read(check.program, check.folder, words, "s,")
    except terminal.NoTerminal as reason:
        print(f"follow: a read that fails in the middle is skipped: there is no terminal ({reason})")
        return 0
    whole = b"+,1,2,a\n+,1,2,b\n"
    return compare(check, "a read that fails in the middle", {},
                   (4, out if out in (whole, whole[:8]) else whole, b"read fault\n"), (status, out, err))
