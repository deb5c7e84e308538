"""The memory of `cedr follow` over a long script: it follows what is open, and not what came."""
import subprocess
import threading

from following import resident, write_all
from networks import NetworkCheck, write_files

PLAN = b"""{"version":1,"nodes":[
 {"name":"s","op":"source","file":"s.csv","fields":["text","int"]},
 {"name":"recent","op":"window","from":["s"],"width":50},
 {"name":"out","op":"output","from":["recent"]}]}
"""
MACHINES, LENGTH, GUARANTEED, AT_ONCE = 100, 300, 1_000, 10_000
MORE, PATIENCE = 1.1, 600


def lines(first: int, count: int) -> bytes:
    """So many lines from this one on, of which every 1,000th is a guarantee."""
    return "".join(line(number) for number in range(first, first + count)).encode()


def line(number: int) -> str:
    if number % GUARANTEED == GUARANTEED - 1:
        return f"s,=,{number}\n"
    return f"s,+,{number},{number},{number + LENGTH},machine-{number % MACHINES},{number}\n"


def check_memory(check: NetworkCheck, first: int, last: int) -> str:
    """Compares the resident set after the first lines and after the last ones. Answers what was seen."""
    files = {"plan.json": PLAN}
    write_files(check.folder, files)
    status, counted, err, seen = followed(check, first, last)
    check.compare("the lines of a long script", files, (0, b"%d" % last, b""), (status, b"%d" % counted, err))
    before, after = seen.get(first, 0), seen.get(last, 0)
    if not 0 < after <= before * MORE:
        check.compare("the memory of a long script", files, (0, f"at most {before * MORE:.1f} MB".encode(), b""),
                      (0, f"{after:.1f} MB".encode(), b""))
    return f"{last} lines in a pipe, {before:.1f} MB after {first} of them and {after:.1f} MB at the end"


def followed(check: NetworkCheck, first: int, last: int) -> tuple:
    """The status, how many lines were written, standard error, and the resident set after so many lines."""
    seen = {}
    with subprocess.Popen([check.program, "follow", "plan.json", "/dev/stdin"], cwd=check.folder, bufsize=0,
                          stdin=subprocess.PIPE, stdout=subprocess.PIPE, stderr=subprocess.PIPE) as process:
        watch = threading.Timer(PATIENCE, process.kill)
        watch.start()
        counter = subprocess.Popen(["wc", "-l"], stdin=process.stdout, stdout=subprocess.PIPE)
        process.stdout.close()
        for at in range(AT_ONCE, last + 1, AT_ONCE):
            if not write_all(process.stdin.fileno(), lines(at - AT_ONCE, AT_ONCE)):
                break
            if at in (first, last):
                seen[at] = resident(process)
        process.stdin.close()
        err = process.stderr.read()
        counted = int(counter.communicate()[0])
        watch.cancel()
    return process.returncode, counted, err, seen
