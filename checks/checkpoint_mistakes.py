"""The same as mistakes.py of those who save, resume and follow: files that aren't checkpoints, plans that can't be saved, and faults
of scripts that go on from a checkpoint or are followed.

What `cedr-explain` says of each is written by hand, from docs/program.md and docs/faults.md."""
from mistakes import Mistake, in_words

RESUME = "resume plan.json saved.txt next.txt"
ANEW = "`cedr save` makes a checkpoint of a script, and each of its lines has one spelling."
OTHERWISE = "Perhaps the checkpoint was saved of another plan, or its sources were changed since."
CUT_OFF = "it was cut off, or isn't written to its end. Save it anew."
FORM = "ID,BEGIN,END,TEXT,INT"
WHOLE = "It must be a whole number from 0 to 4,611,686,018,427,387,903, in digits alone"
LEVEL = '"level":{"block":60,"memory":3600}'
WHY = 'So it is for "middle" and "strong". docs/levels.md says in "What can be saved" why.'


def in_checkpoint(name: str, old: str, new: str, line: int, *lines: str) -> Mistake:
    """A mistake in saved.txt."""
    return Mistake(name, RESUME, 7, f"checkpoint line {line}", [*lines], "saved.txt", old, new)


def in_plan(name: str, words: str, node: int, old: str, new: str, mark: str, *lines: str) -> Mistake:
    """A level that keeps plan.json from being saved."""
    return Mistake(name, words, 2, f"plan fault 15 node {node}", [*lines], "plan.json", old, new, mark)


def in_script(name: str, words: str, told: str, old: str, new: str, *lines: str) -> Mistake:
    """A mistake in next.txt, or in script.txt for `save`."""
    file = words.split()[-1]
    return Mistake(name, words, 3, f"events {file} {told}", [*lines], file, old, new)


def followed(name: str, told: str, text: str, *lines: str) -> Mistake:
    """A mistake in a script that is followed, behind the insertion of one event."""
    return Mistake(name, "follow plan.json script.txt", 3, f"events script.txt {told}", [*lines], "script.txt", "",
                   f"orders,+,1,1000,1001,A1,250\n{text}")


def of_its_own(identity: int) -> str:
    return (f"Each insertion has an ID of its own, even where that event was withdrawn. A line `~,{identity},BEGIN,END,FIELD..` gives "
            "that event another begin, end and other fields.")


AT_HEAD = [
    in_checkpoint("another version", "checkpoint,1", "checkpoint,2", 1,
                  "saved.txt:1: The first line of a checkpoint is `checkpoint,1`, and not `checkpoint,2`.",
                  "> 1 | checkpoint,2", "  2 | source,orders,1000"),
    in_checkpoint("a byte order mark before the checkpoint", "checkpoint,1", "\ufeffcheckpoint,1", 1,
                  "saved.txt:1: The first line of a checkpoint is `checkpoint,1`, and not `\\ufeffcheckpoint,1`. The file begins "
                  "with a byte order mark, which no checkpoint has."),
    in_checkpoint("carriage returns", "checkpoint,1\n", "checkpoint,1\r\n", 1,
                  f"saved.txt:1: A carriage return stands at its end. {ANEW}"),
    in_checkpoint("an empty file as the checkpoint", "", "", 1,
                  "saved.txt:1: The file is empty. A checkpoint begins with the line `checkpoint,1`."),
    Mistake("the script before the checkpoint", "resume plan.json next.txt saved.txt", 7, "checkpoint line 1",
            ["next.txt:1: The first line of a checkpoint is `checkpoint,1`, and not `orders,+,3,3000,3001,A3,700`. `saved.txt` "
             "begins with it: the checkpoint stands before the script, `cedr resume PLAN CHECKPOINT SCRIPT`.",
             "> 1 | orders,+,3,3000,3001,A3,700"]),
    Mistake("a script for the checkpoint", "resume plan.json script.txt next.txt", 7, "checkpoint line 1",
            ["script.txt:1: The first line of a checkpoint is `checkpoint,1`, and not `orders,+,1,1000,1001,A1,250`. This is a "
             "script or an event file; `cedr save PLAN SCRIPT` makes a checkpoint of a script."]),
]
AT_SOURCES = [
    in_checkpoint("a source of another plan", "source,payments", "source,returns", 5,
                  f"saved.txt:5: It begins the source `returns`. In the order of the plan the next one is `payments`. {OTHERWISE}",
                  "  4 | 2,2000,2000", "> 5 | source,returns,0", "  6 | 1,5000,5001,A1,250"),
    in_checkpoint("a source too many", "end\n", "source,returns,0\nend\n", 7,
                  f"saved.txt:7: The plan has no further source, and this line begins `returns`. {OTHERWISE}"),
    in_checkpoint("a source too few", "source,payments,0\n1,5000,5001,A1,250\n", "", 5,
                  f"saved.txt:5: No line has the source `payments` yet, which the plan has. {OTHERWISE}"),
    in_checkpoint("no guarantee", "source,orders,1000", "source,orders,", 2, f"saved.txt:2: Its MARK is ``. {WHOLE}, or `inf`. It is empty."),
    in_checkpoint("a guarantee with zeros in front", "source,orders,1000", "source,orders,01000", 2,
                  f"saved.txt:2: Its MARK, `01000`, is written `1000`. {ANEW}"),
    in_checkpoint("an event before its source", "source,orders,1000\n", "", 2,
                  "saved.txt:2: Here the first source of the plan begins: `source,orders,MARK`."),
]
AT_EVENTS = [
    in_checkpoint("an ID twice", "2,2000,2000\n", "1,2000,2000\n", 4,
                  "saved.txt:4: Its ID, 1, isn't above that of the event before it, 1. The IDs of a source ascend."),
    in_checkpoint("a field too few", "A1,250\n2", "A1\n2", 3,
                  f"saved.txt:3: It has 1 field behind its END. An event of `orders` has 2 by the plan: {FORM}. {OTHERWISE}"),
    in_checkpoint("a field of another type", ",250\n2", ",2.5\n2", 3,
                  "saved.txt:3: Its field 1, `2.5`, must be an int by the plan, a whole number from -2^63 to 2^63 - 1. "
                  f"{OTHERWISE}"),
    in_checkpoint("a number with a sign", "1,1000", "+1,1000", 3,
                  "saved.txt:3: It is neither the next source, `source,payments,MARK`, nor the line of an event, "
                  f"ID,BEGIN,END,FIELD.. {ANEW}"),
    in_checkpoint("zeros in front of a field", ",250\n2", ",0250\n2", 3,
                  f"saved.txt:3: Its field 1, `0250`, is written `250`. {ANEW}"),
    in_checkpoint("quotes around each text", "A1,250\n2", '"A1",250\n2', 3,
                  f"saved.txt:3: A field stands between quotes that it doesn't need. {ANEW}"),
    in_checkpoint("a quote in a field of a checkpoint", "A1,250\n2", 'A"1,250\n2', 3,
                  'saved.txt:3: Field 4, `A"1`, has a quote and doesn\'t begin with one. Such a field stands between quotes, and a '
                  'quote in it is written twice: "A""1".'),
    in_checkpoint("a withdrawn event with its fields", "2,2000,2000", "2,2000,2000,A2,40", 4,
                  "saved.txt:4: Its END is its BEGIN, so the event is withdrawn, and such a one has no fields."),
    in_checkpoint("an end before the begin", "1000,1001", "1000,999", 3, "saved.txt:3: Its END, 999, is before its BEGIN, 1000."),
    in_checkpoint("no end of an event", "2,2000,2000", "2,2000", 4,
                  f"saved.txt:4: It has 2 fields. The line of an event of `orders` is {FORM}, and ID,BEGIN,BEGIN where it is "
                  "withdrawn."),
    in_checkpoint("a carriage return in a field", "A1,250\n2", "A\r1,250\n2", 3,
                  "saved.txt:3: A carriage return stands in it, which no field has."),
]
AT_ENDS = [
    in_checkpoint("a file that was cut off behind a line", "end\n", "", 7,
                  f"saved.txt:6: The file stops behind this line. The last line of a checkpoint is `end`: {CUT_OFF}",
                  "  6 | 1,5000,5001,A1,250"),
    in_checkpoint("a file that was cut off in a line", "A1,250\nend\n", "A1", 7,
                  f"saved.txt:6: The file stops in this line, which has no line feed: {CUT_OFF}", "  6 | 1,5000,5001,A1"),
    in_checkpoint("no line feed at the end", "end\n", "end", 8,
                  f"saved.txt:7: The file stops in this line, which has no line feed: {CUT_OFF}"),
    in_checkpoint("an empty line behind the end", "end\n", "end\n\n", 8,
                  "saved.txt:8: Behind the line `end` nothing may stand, not even an empty line."),
]
IN_PLANS = [
    in_plan("a level with a memory, to be saved", "save plan.json script.txt", 7, '"level":"strong"', LEVEL, '3600}}]}',
            f'The level\'s `memory` is 3600. In a plan that is saved each memory is "inf". {WHY}',
            f'plan.json:8:65: The level\'s `block` is 60. In a plan that is saved each block is 0 or "inf". {WHY}'),
    in_plan("a level with a block, to go on from", RESUME, 3, '"large","op":"select",',
            '"large","op":"select","level":{"block":60,"memory":"inf"},', '60,"memory"',
            f'The level\'s `block` is 60. In a plan that is saved each block is 0 or "inf". {WHY}'),
]
IN_SCRIPTS = [
    in_script("a script's line of no source, to be saved", "save plan.json script.txt", "line 2 fault 2", "payments,", "payment,",
              "script.txt:2: A line of a script is `?` alone, or the name of a source, a comma and an event line of it. `payment` "
              "is no source. The plan's sources are orders, payments."),
    in_script("an ID twice, to be saved", "save plan.json script.txt", "line 2 fault 6", "payments,", "orders,",
              f"script.txt:2: Its ID, 1, was inserted before, by line 1. {of_its_own(1)}"),
    in_script("an ID of the checkpoint once more", RESUME, "line 1 fault 6", "+,3", "+,2",
              f"next.txt:1: Its ID, 2, was inserted before, by line 4 of `saved.txt`. {of_its_own(2)}"),
    in_script("a line before the checkpoint's guarantee", RESUME, "line 1 fault 9 sync 900 mark 1000", "3,3000", "3,900",
              "next.txt:1: It changes something from 900 on, its BEGIN, and line 2 of `saved.txt`, `source,orders,1000`, "
              "guarantees that no later line does so before 1000. Such a line is best left out, or the guarantee comes later. "
              'docs/guide.md says in "Corrections" what can still be put right once a guarantee has passed.'),
    in_script("a retraction to the end that an event has in the checkpoint", RESUME, "line 2 fault 8 begin 1000 end 1001", "-,3,3000",
              "-,1,1001",
              "next.txt:2: The event 1 is valid from 1000 on and before 1001 by line 3 of `saved.txt`. A retraction makes an end "
              "earlier: its END must be from 1000, which withdraws the event, to 1000. Before this line it ends at 1001 already."),
    in_script("a retraction of what is withdrawn in the checkpoint", RESUME, "line 2 fault 8 begin 2000 end 2000", "-,3,3000",
              "-,2,2000", "next.txt:2: The event 2 was withdrawn before, by line 4 of `saved.txt`. A line `~,2,BEGIN,END,FIELD..` "
              "alone can bring it back."),
    in_script("an ID of another source of the checkpoint", RESUME, "line 2 fault 7", "orders,-,3,3000", "payments,-,2,2000",
              "next.txt:2: Its ID, 2, was inserted by no line before. A line `-` or `~` names an event that a line `+` of the same "
              "file inserted or that the checkpoint has."),
    Mistake("a checkpoint that isn't there", "resume plan.json saves.txt next.txt", 4, "read fault",
            ["The checkpoint, `saves.txt`, can't be read: there is no such file. Perhaps `saved.txt` is meant."]),
]
OVER = "A script that is followed forgets such an event, and no line changes it any more."
IN_FOLLOWED = [
    followed("a retraction of an event that is over", "line 3 fault 7", "orders,=,1002\norders,-,1,1000\n",
             "script.txt:3: The event 1 is over: by line 1 it ends at 1001, and line 2, `=,1002`, is above that. "
             f"{OVER} A line `+,1,BEGIN,END,FIELD..` makes a new event of that ID.",
             "  2 | orders,=,1002", "> 3 | orders,-,1,1000"),
    followed("a revision of what was withdrawn before the guarantee", "line 4 fault 7",
             "orders,-,1,1000\norders,=,1001\norders,~,1,2000,2001,A1,250\n",
             "script.txt:4: The event 1 is over: by line 2 it ends at 1000, and line 3, `=,1001`, is above that. "
             f"{OVER} A line `+,1,BEGIN,END,FIELD..` makes a new event of that ID."),
    followed("an ID that is used anew, twice", "line 4 fault 6",
             "orders,=,1002\norders,+,1,1002,1003,A2,40\norders,+,1,1004,1005,A3,700\n",
             f"script.txt:4: Its ID, 1, was inserted before, by line 3. {of_its_own(1)}"),
    followed("no source, in a script that is followed", "line 2 fault 2", "order,=,1002\norders,-,1,1000\n",
             "script.txt:2: A line of a script is `?` alone, or the name of a source, a comma and an event line of it. `order` is no "
             "source. The plan's sources are orders, payments."),
    Mistake("an event of the checkpoint that is over", "follow plan.json saved.txt next.txt", 3, "events next.txt line 2 fault 7",
            ["next.txt:2: The event 1 is over: by line 3 of `saved.txt` it ends at 1001, and line 1, `=,1002`, is above that. "
             f"{OVER} A line `+,1,BEGIN,END,FIELD..` makes a new event of that ID."],
            "next.txt", "", "orders,=,1002\norders,-,1,1000\n"),
    in_plan("a level with a memory, to be followed", "follow plan.json script.txt", 7, '"level":"strong"', LEVEL, '3600}}]}',
            f'The level\'s `memory` is 3600. In a plan that is saved each memory is "inf". {WHY}'),
    Mistake("the script before the checkpoint, to be followed", "follow plan.json next.txt saved.txt", 7, "checkpoint line 1",
            ["next.txt:1: The first line of a checkpoint is `checkpoint,1`, and not `orders,+,3,3000,3001,A3,700`. `saved.txt` "
             "begins with it: the checkpoint stands before the script, `cedr follow PLAN CHECKPOINT SCRIPT`."]),
    Mistake("a script to follow that isn't there", "follow plan.json scripts.txt", 4, "read fault",
            ["The script, `scripts.txt`, can't be read: there is no such file. Perhaps `script.txt` is meant."]),
    in_words("no script to follow", "follow plan.json",
             "Behind `follow` stands one word; it is called as `cedr follow PLAN SCRIPT` or `cedr follow PLAN CHECKPOINT SCRIPT`."),
    in_words("a word of another tool for following", "tail plan.json script.txt", "`tail` is no command. Perhaps `follow` is meant."),
]
ALL = [*AT_HEAD, *AT_SOURCES, *AT_EVENTS, *AT_ENDS, *IN_PLANS, *IN_SCRIPTS, *IN_FOLLOWED]
