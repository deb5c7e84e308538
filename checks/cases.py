"""Files whose answers are written out by hand: the name of the case, the file's bytes and what must come."""
from program import Case

LINE = 65_536
LIMIT = 67_108_864


def accepted(name: str, data: bytes, rows: bytes) -> Case:
    return Case(name, data, 0, rows, b"")


def refused(name: str, data: bytes, told: str) -> Case:
    """A case of the file e.csv, whose first faulty line is told by these words."""
    return Case(name, data, 3, b"", f"events e.csv line {told}\n".encode())


def inserted(payload: bytes, times: bytes = b"1,2") -> bytes:
    return b"+,1," + times + b"," + payload + b"\n"


def guarantee(size: int) -> bytes:
    """A guarantee of 0, in a line of so many bytes with its line feed."""
    return b"=," + b"0" * (size - 3) + b"\n"


EVENT = b"+,1,4,9,a\n"
FIELDS = b",".join([b"f"] * 16)
HIGH = bytes(range(0x80, 0x100))
ODD = bytes(byte for byte in range(0x80) if byte not in b'\n\r",')

ACCEPTED = [
    ("an empty file", b"", b""),
    ("a line feed alone", b"\n", b""),
    ("a carriage return alone", b"\r", b""),
    ("empty lines of both kinds", b"\n\r\n\n" + EVENT + b"\r\n", b"4,9,a\n"),
    ("an event, a retraction, an open end and a guarantee",
     b"+,1,1,10,a\n-,1,5\n+,2,3,inf,b\n=,4\n", b"1,5,a\n3,inf,b\n"),
    ("no line feed at the end", EVENT[:-1], b"4,9,a\n"),
    ("a carriage return at the file's end", EVENT[:-1] + b"\r", b"4,9,a\n"),
    ("carriage returns before line feeds", b"+,1,4,9,a\r\n-,1,6\r\n=,6\r\n", b"4,6,a\n"),
    ("a carriage return behind a closing quote", b'+,1,4,9,"a"\r\n', b"4,9,a\n"),
    ("leading zeros", b"+,007,0004,09,01\n-,7,08\n=,0005\n", b"4,8,01\n"),
    ("a guarantee that nothing follows, twice", EVENT + b"=,inf\n=,inf\n", b"4,9,a\n"),
    ("a guarantee of 0 and a falling one", b"=,0\n=,4\n=,2\n" + EVENT, b"4,9,a\n"),
    ("an insertion at the guarantee", b"=,4\n" + EVENT, b"4,9,a\n"),
    ("a retraction at the guarantee", EVENT + b"=,6\n-,1,6\n", b"4,6,a\n"),
    ("a withdrawal at the guarantee", EVENT + b"=,4\n-,1,4\n", b""),
    ("several retractions", EVENT + b"-,1,8\n-,1,7\n-,1,5\n", b"4,5,a\n"),
    ("a revision", b"+,1,1,10,a\n~,1,3,6,b\n", b"3,6,b\n"),
    ("a retraction after a revision", b"+,1,1,10,a\n~,1,3,6,b\n-,1,5\n", b"3,5,b\n"),
    ("a retraction to an end that a revision allows", EVENT + b"~,1,4,20,a\n-,1,15\n", b"4,15,a\n"),
    ("a withdrawal after a revision", EVENT + b"~,1,6,9,a\n-,1,6\n", b""),
    ("a revision that lengthens what a retraction cut", EVENT + b"-,1,5\n~,1,4,12,a\n", b"4,12,a\n"),
    ("a revision that brings back a withdrawn event", b"+,1,2,9,a\n-,1,2\n=,4\n~,1,5,8,c\n", b"5,8,c\n"),
    ("several revisions", EVENT + b"~,1,1,2,b\n~,1,6,inf,c\n~,1,3,7,d\n", b"3,7,d\n"),
    ("a revision that changes nothing", EVENT + b"~,1,4,9,a\n", b"4,9,a\n"),
    ("a revision to the row of another event", EVENT + b"+,2,1,2,b\n~,2,4,9,a\n", b"4,9,a\n" * 2),
    ("revisions with fewer and with more fields", EVENT + b"+,2,4,9\n~,1,4,9\n~,2,4,9,a,b\n", b"4,9\n4,9,a,b\n"),
    ("a revision at the guarantee", EVENT + b"=,4\n~,1,4,5,b\n", b"4,5,b\n"),
    ("a revision of an event whose first version the guarantee passed",
     EVENT + b"~,1,6,9,a\n=,5\n~,1,5,8,a\n", b"5,8,a\n"),
    ("a quoted revision with leading zeros", EVENT + b'"~","01","005","inf","a,b"\r\n', b'5,inf,"a,b"\n'),
    ("a revision to 16 fields", EVENT + b"~,1,1,2," + FIELDS + b"\n", b"1,2," + FIELDS + b"\n"),
    ("a withdrawn event beside one that stays", EVENT + b"+,2,4,9,a\n-,1,4\n", b"4,9,a\n"),
    ("equal rows", EVENT + b"+,2,4,9,a\n+,3,4,9,a\n", b"4,9,a\n" * 3),
    ("the greatest id and the least",
     b"+,18446744073709551615,1,2,a\n+,0,1,2,b\n-,18446744073709551615,1\n", b"1,2,b\n"),
    ("the greatest begin", b"+,1,4611686018427387903,inf,a\n", b"4611686018427387903,inf,a\n"),
    ("the greatest end below none",
     b"+,1,0,4611686018427387903,a\n=,4611686018427387903\n", b"0,4611686018427387903,a\n"),
    ("an open end that is cut", b"+,1,1,inf,a\n-,1,4611686018427387903\n", b"1,4611686018427387903,a\n"),
    ("16 fields", inserted(FIELDS), b"1,2," + FIELDS + b"\n"),
    ("no field and one empty field", b"+,2,1,2,\n+,1,1,2\n", b"1,2\n1,2,\n"),
    ("empty fields", inserted(b",,"), b"1,2,,,\n"),
    ("every field quoted, with doubled quotes", b'"+","1","1","2","a,""b"\n', b'1,2,"a,""b"\n'),
    ("a quoted retraction and guarantee", b'"+","1","4","9"\n"-","1","6"\n"=","inf"\n', b"4,6\n"),
    ("a quoted comma", inserted(b'"a,b"'), b'1,2,"a,b"\n'),
    ("a quoted quote alone", inserted(b'""""'), b'1,2,""""\n'),
    ("quoted fields that need no quotes", inserted(b'"","a b",""'), b"1,2,,a b,\n"),
    ("an empty quoted field at the end", inserted(b'""'), b"1,2,\n"),
    ("bytes above 0x7F", inserted(HIGH), b"1,2," + HIGH + b"\n"),
    ("bytes below 0x80", inserted(ODD), b"1,2," + ODD + b"\n"),
    ("a byte order mark in a payload", inserted(b"\xef\xbb\xbf"), b"1,2,\xef\xbb\xbf\n"),
    ("words of the format in a payload", inserted(b"inf,+,-,="), b"1,2,inf,+,-,=\n"),
    ("spaces in a payload", inserted(b" a , "), b"1,2, a , \n"),
    ("order by end, then by begin",
     b"+,1,1,9\n+,2,8,inf\n+,3,7,9\n+,4,0,10\n+,5,2,3\n", b"2,3\n1,9\n7,9\n0,10\n8,inf\n"),
    ("order by the end that a retraction leaves", b"+,1,1,inf,a\n+,2,1,5,b\n-,1,3\n", b"1,3,a\n1,5,b\n"),
    ("order field by field", b"+,1,1,2,a!\n+,2,1,2,a,b\n+,3,1,2,a\n", b"1,2,a\n1,2,a,b\n1,2,a!\n"),
    ("order of texts by bytes", b"+,1,1,2,\xc3\xa9\n+,2,1,2,b\n+,3,1,2,B\n+,4,1,2,10\n+,5,1,2,9\n+,6,1,2,\n",
     b"1,2,\n1,2,10\n1,2,9\n1,2,B\n1,2,b\n1,2,\xc3\xa9\n"),
    ("order of values, not of their quoted texts",
     b'+,1,1,2,"b,"\n+,2,1,2,a\n+,3,1,2,"!"""\n', b'1,2,"!"""\n1,2,a\n1,2,"b,"\n'),
    ("a line of 65,536 bytes", inserted(b"a" * (LINE - 8)), b"1,2," + b"a" * (LINE - 8) + b"\n"),
    ("a line of 65,536 bytes, one a carriage return",
     inserted(b"a" * (LINE - 9) + b"\r"), b"1,2," + b"a" * (LINE - 9) + b"\n"),
    ("a last line of 65,536 bytes", inserted(b"a" * (LINE - 8))[:-1], b"1,2," + b"a" * (LINE - 8) + b"\n"),
    ("a quoted line of 65,536 bytes", inserted(b'"' + b'""' * 32_763 + b'"'), b'1,2,"' + b'""' * 32_763 + b'"\n'),
]

OPEN = b"+,1,4,inf\n"
LONG = b"0" * LINE

REFUSED = [
    ("a long line", b"a" * (LINE + 1) + b"\n", "1 fault 1"),
    ("a line of 65,536 letters", b"a" * LINE + b"\n", "1 fault 2"),
    ("a long last line", inserted(b"a" * (LINE - 7))[:-1], "1 fault 1"),
    ("a line that its carriage return makes long", inserted(b"a" * (LINE - 8) + b"\r"), "1 fault 1"),
    ("a last line that its carriage return makes long", inserted(b"a" * (LINE - 8) + b"\r")[:-1], "1 fault 1"),
    ("a long line behind a faulty one", b"x\n" + b"a" * (LINE + 1), "1 fault 2"),
    ("an unknown kind", b"*,1,4,9\n", "1 fault 2"),
    ("a kind of two bytes", b"++,1,4,9\n", "1 fault 2"),
    ("an empty kind", b",1,4,9\n", "1 fault 2"),
    ("an empty quoted kind", b'""\n', "1 fault 2"),
    ("a space before the kind", b" +,1,4,9\n", "1 fault 2"),
    ("a byte order mark", b"\xef\xbb\xbf" + EVENT, "1 fault 2"),
    ("a byte order mark alone", EVENT + b"\xef\xbb\xbf", "2 fault 2"),
    ("a byte order mark and a quote", b'\xef\xbb\xbf"+","1","4","9"\n', "1 fault 2"),
    ("a carriage return inside", inserted(b"a\rb"), "1 fault 2"),
    ("two carriage returns at the end", inserted(b"a\r\r"), "1 fault 2"),
    ("two carriage returns alone", b"\r\r\n", "1 fault 2"),
    ("a carriage return in a quoted field", inserted(b'"a\rb"'), "1 fault 2"),
    ("a carriage return before a closing quote", inserted(b'"a\r"'), "1 fault 2"),
    ("a quote in a bare field", inserted(b'a"b'), "1 fault 2"),
    ("a bare field of doubled quotes", inserted(b'a""'), "1 fault 2"),
    ("a text behind a closing quote", inserted(b'"a"b'), "1 fault 2"),
    ("a space behind a closing quote", inserted(b'"a" ,b'), "1 fault 2"),
    ("a space before an opening quote", inserted(b' "a"'), "1 fault 2"),
    ("an unclosed quote", inserted(b'"a'), "1 fault 2"),
    ("an unclosed quote at the end", inserted(b'"'), "1 fault 2"),
    ("a quoted field of an odd number of quotes", inserted(b'"""'), "1 fault 2"),
    ("a line feed in a quoted field", inserted(b'"a\nb"'), "1 fault 2"),
    ("a quote after good fields, with bad numbers", b'+,x,y,z,"\n', "1 fault 2"),
    ("an insertion of 3 fields", b"+,1,4\n", "1 fault 2"),
    ("an insertion of 21 fields", inserted(FIELDS + b",f"), "1 fault 2"),
    ("an insertion of 21 quoted fields", inserted(FIELDS + b',""'), "1 fault 2"),
    ("a revision of 3 fields", EVENT + b"~,1,4\n", "2 fault 2"),
    ("a revision of 21 fields", EVENT + b"~,1,1,2," + FIELDS + b",f\n", "2 fault 2"),
    ("a retraction of 2 fields", EVENT + b"-,1\n", "2 fault 2"),
    ("a retraction of 4 fields", EVENT + b"-,1,6,a\n", "2 fault 2"),
    ("a guarantee of 1 field", b"=\n", "1 fault 2"),
    ("a guarantee of 3 fields", b"=,1,\n", "1 fault 2"),
    ("an empty id", b"+,,4,9\n", "1 fault 3"),
    ("an id of 2^64", b"+,18446744073709551616,4,9\n", "1 fault 3"),
    ("an id of 2^64 in a retraction", EVENT + b"-,18446744073709551617,6\n", "2 fault 3"),
    ("an id of inf", b"+,inf,4,9\n", "1 fault 3"),
    ("an id of inf in a revision", EVENT + b"~,inf,4,9\n", "2 fault 3"),
    ("an id with a sign", b"+,+1,4,9\n", "1 fault 3"),
    ("an id with a space", b"+, 1,4,9\n", "1 fault 3"),
    ("an id with a byte that isn't a digit", b"+,1\x00,4,9\n", "1 fault 3"),
    ("an id of other digits", "+,\u0661,4,9\n".encode(), "1 fault 3"),
    ("a begin of inf", b"+,1,inf,inf\n", "1 fault 3"),
    ("a begin of inf in a revision", EVENT + b"~,1,inf,inf\n", "2 fault 3"),
    ("a begin of 2^62", b"+,1,4611686018427387904,inf,a\n", "1 fault 3"),
    ("an end of 2^62", b"+,1,4,4611686018427387904\n", "1 fault 3"),
    ("an end below 0", b"+,1,4,-9\n", "1 fault 3"),
    ("an end of Inf", b"+,1,4,Inf\n", "1 fault 3"),
    ("a new end of 2^62", OPEN + b"-,1,4611686018427387904\n", "2 fault 3"),
    ("an empty new end", EVENT + b"-,1,\n", "2 fault 3"),
    ("a guarantee of 2^62", b"=,4611686018427387904\n", "1 fault 3"),
    ("a guarantee of 2^64", b"=,18446744073709551616\n", "1 fault 3"),
    ("an empty guarantee", b"=,\n", "1 fault 3"),
    ("an empty interval", b"+,1,4,4,a\n", "1 fault 4"),
    ("an end before its begin", b"+,1,9,4,a\n", "1 fault 4"),
    ("an empty interval of a revision", EVENT + b"~,1,4,4,a\n", "2 fault 4"),
    ("a known id", EVENT + b"+,2,4,9\n+,01,5,9\n", "3 fault 6"),
    ("a known id of a withdrawn event", EVENT + b"-,1,4\n" + EVENT, "3 fault 6"),
    ("a known id of a revised event", EVENT + b"~,1,6,9,a\n" + EVENT, "3 fault 6"),
    ("a revision of an unknown id", b"~,7,1,2,a\n", "1 fault 7"),
    ("an unknown id", EVENT + b"-,2,6\n", "2 fault 7"),
    ("an id that is known only later", b"-,1,6\n" + EVENT, "1 fault 7"),
    ("a new end before the begin", EVENT + b"-,1,3\n", "2 fault 8 begin 4 end 9"),
    ("a new end at the end", EVENT + b"-,1,9\n", "2 fault 8 begin 4 end 9"),
    ("a new end at the end as it is now", EVENT + b"-,1,6\n-,1,6\n", "3 fault 8 begin 4 end 6"),
    ("a new end before the begin of a revision", EVENT + b"~,1,6,9,a\n-,1,5\n", "3 fault 8 begin 6 end 9"),
    ("a new end at the end of a revision", EVENT + b"~,1,4,6,a\n-,1,6\n", "3 fault 8 begin 4 end 6"),
    ("a second withdrawal", b"+,1,2,9,a\n-,1,2\n-,1,2\n", "3 fault 8 begin 2 end 2"),
    ("an open new end", OPEN + b"-,1,inf\n", "2 fault 8 begin 4 end inf"),
    ("an insertion before the guarantee", b"=,10\n+,1,9,12,a\n", "2 fault 9 sync 9 mark 10"),
    ("a retraction before the guarantee", EVENT + b"=,7\n-,1,6\n", "3 fault 9 sync 6 mark 7"),
    ("a withdrawal before the guarantee", EVENT + b"=,5\n-,1,4\n", "3 fault 9 sync 4 mark 5"),
    ("a revision before the guarantee", EVENT + b"=,4\n~,1,3,9,a\n", "3 fault 9 sync 3 mark 4"),
    ("a revision of an event before the guarantee", b"+,1,1,10,a\n=,2\n~,1,3,6,b\n", "3 fault 9 sync 1 mark 2"),
    ("a revision before its event and the guarantee", EVENT + b"=,5\n~,1,3,6,b\n", "3 fault 9 sync 3 mark 5"),
    ("a revision behind its event and before the guarantee", EVENT + b"=,8\n~,1,6,9,b\n", "3 fault 9 sync 4 mark 8"),
    ("a revision of a withdrawn event before the guarantee",
     b"+,1,2,9,a\n-,1,2\n=,4\n~,1,3,8,c\n", "4 fault 9 sync 3 mark 4"),
    ("a revision of a revised event before the guarantee", EVENT + b"~,1,3,9,a\n=,4\n~,1,5,9,a\n",
     "4 fault 9 sync 3 mark 4"),
    ("an insertion before the greatest guarantee", b"=,5\n=,3\n" + EVENT, "3 fault 9 sync 4 mark 5"),
    ("an insertion after the last guarantee", b"=,inf\n" + EVENT, "2 fault 9 sync 4 mark inf"),
    ("leading zeros before the guarantee", b"=,0010\n+,1,0009,0012\n", "2 fault 9 sync 9 mark 10"),
    ("empty lines count", b"\n\r\n" + EVENT + b"\n-,2,6\n", "5 fault 7"),
    ("a last line without a line feed", EVENT + b"-,2,6", "2 fault 7"),
    ("the first of two faulty lines", EVENT + b"-,2,6\nx\n", "2 fault 7"),
    ("an accepted line behind a faulty one", b"x\n" + EVENT, "1 fault 2"),
    # Of two faults of one line the least is told.
    ("1 before 2", LONG + b",\r,\n", "1 fault 1"),
    ("1 before 3", b"=," + LONG + b"x\n", "1 fault 1"),
    ("1 before 4", b"+,1,9,4," + LONG + b"\n", "1 fault 1"),
    ("1 before 6", EVENT + b"+,1,4,9," + LONG + b"\n", "2 fault 1"),
    ("1 before 7", b"-,1," + LONG + b"\n", "1 fault 1"),
    ("1 before 7 in a revision", b"~,1,4,9," + LONG + b"\n", "1 fault 1"),
    ("1 before 8", EVENT + b"-,1," + LONG + b"9\n", "2 fault 1"),
    ("1 before 9", b"=,5\n" + b"+,1,4,9," + LONG + b"\n", "2 fault 1"),
    ("2 before 3", b"+,x,4,9,a\r,\n", "1 fault 2"),
    ("2 before 4", b"+,1,9,4," + FIELDS + b",f\n", "1 fault 2"),
    ("2 before 6", EVENT + b'+,1,4,9,a"\n', "2 fault 2"),
    ("2 before 7", b"-,1,6,\n", "1 fault 2"),
    ("2 before 7 in a revision", b"~,1,4\n", "1 fault 2"),
    ("2 before 8", EVENT + b"-,1,9,\n", "2 fault 2"),
    ("2 before 9", b'=,5\n+,1,4,9,"a"a\n', "2 fault 2"),
    ("3 before 4", b"+,x,9,4\n", "1 fault 3"),
    ("3 before 6", EVENT + b"+,1,x,9\n", "2 fault 3"),
    ("3 before 7", b"-,1,x\n", "1 fault 3"),
    ("3 before 7 in a revision", b"~,1,4,x\n", "1 fault 3"),
    ("3 before 9", b"=,5\n+,x,4,9\n", "2 fault 3"),
    ("4 before 6", EVENT + b"+,1,9,9\n", "2 fault 4"),
    ("4 before 7", b"~,1,9,9\n", "1 fault 4"),
    ("4 before 9", b"=,5\n+,1,4,4\n", "2 fault 4"),
    ("6 before 9", EVENT + b"=,5\n" + EVENT, "3 fault 6"),
    ("7 before 9", b"=,7\n-,1,6\n", "2 fault 7"),
    ("7 before 9 in a revision", b"=,5\n~,1,4,9\n", "2 fault 7"),
    ("8 before 9", EVENT + b"=,7\n-,1,3\n", "3 fault 8 begin 4 end 9"),
]

SMALL = [accepted(*case) for case in ACCEPTED] + [refused(*case) for case in REFUSED]


def large():
    """Cases at the limit of 67,108,864 bytes. THOUSAND and FULL have just so many, FULL in 1,025 whole lines."""
    front = EVENT + guarantee(LINE) * 1_022
    full = front + guarantee(LINE) + guarantee(LINE - 10)
    thousand = guarantee(LINE) * 1_024
    yield accepted("1,024 lines that fill the limit", thousand, b"")
    yield refused("1,024 lines that fill the limit, and a line feed more", thousand + b"\n", "1025 fault 10")
    yield accepted("a file at the limit", full, b"4,9,a\n")
    yield accepted("a file at the limit, no line feed at its end", full[:-1] + b"0", b"4,9,a\n")
    yield refused("a line feed at the limit and one behind", full + b"\n", "1026 fault 10")
    yield refused("a faulty line behind the limit", full + b"x\n", "1026 fault 10")
    yield refused("a line feed just behind the limit", full[:-1] + b"0\n", "1025 fault 10")
    yield refused("an unfinished line in no form", full[: 10 - LINE] + b"x" * LINE + b"\n", "1025 fault 10")
    yield refused("a faulty first line", b"+,1,9,4,a\n" + full[10:] + b"\n", "1 fault 4")
    yield refused("a faulty last line", full[:-8] + b"\n-,1,10\n\n", "1026 fault 8 begin 4 end 9")
    yield refused("a whole line that is long", EVENT + b"a" * (LINE + 1) + b"\n" + full, "2 fault 1")
    at_most = front + guarantee(LINE - 10)
    yield refused("65,536 bytes behind the last whole line", at_most + LONG + b"\n", "1025 fault 10")
    yield refused("65,537 bytes behind the last whole line", at_most[:-2] + b"\n" + LONG + b"0\n", "1025 fault 1")
    yield refused("no line feed at all", b"0" * (LIMIT + 1), "1 fault 1")
