#!/usr/bin/env python3
# Prints src/tables.rt, to be laid out by `rt fmt`: a ticket, a yes, the yes tied to the ticket, and things at the edges of what can be. The
# MACs are from Python's hmac (OpenSSL's implementation). With the word `hex`, it prints rows of the example in docs/FORMAT.md.
import hmac
import sys

HOUSE = bytes(range(32))
SECRET = bytes(range(32, 64))

MUSEUMS = bytes([1, 2, 3, 4])
DAYS = bytes([2, 0, 10, 0, 20])
PERSONS = bytes([4, 2])
ELSE = bytes([6, 0, 5])
NUMBER = bytes([0, 0, 0, 7])


def mac(key, message):
    return hmac.digest(key, message, "sha256")


def chain(start, lines):
    for line in lines:
        start = mac(start, line)
    return start


def ticket_mac(number, lines):
    return chain(mac(HOUSE, number), lines)


def yes_mac(limits):
    return chain(mac(SECRET, bytes([1])), limits)


def row(lines):
    return bytes([len(lines)]) + b"".join(bytes([len(line)]) + line for line in lines)


def ticket_body(number, lines):
    return bytes([16]) + number + row(lines)


def yes_body(kind, key, limits):
    return bytes([kind]) + key.to_bytes(2, "big") + row(limits)


LINES = [MUSEUMS, ELSE, PERSONS]
TICKETS = [ticket_body(NUMBER, LINES[:n]) + ticket_mac(NUMBER, LINES[:n]) for n in (1, 2, 3)]
YESES = [yes_body(17, 5, [DAYS][:n]) + yes_mac([DAYS][:n]) for n in (0, 1)]
TIE = mac(ticket_mac(NUMBER, LINES), bytes([3]) + yes_mac([DAYS]))
TIED = yes_body(18, 5, [DAYS]) + TIE
PASSED = bytes([19]) + ticket_body(NUMBER, LINES) + TIED
KEY = bytes([20, 0, 5]) + SECRET

# The kind that is looked for, bytes to which 32 more are added, and what is told of them all: 0 if they are read, else the number of
# the fault.
TOLD = [
    ("how many lines", [
        (16, ticket_body(NUMBER, []), 2),
        (16, ticket_body(NUMBER, [PERSONS]), 0),
        (16, bytes([16]) + NUMBER + bytes([33]), 3),
        (19, bytes([19]) + ticket_body(NUMBER, []) + yes_body(18, 5, []), 2),
        (19, bytes([19]) + ticket_body(NUMBER, [PERSONS]) + yes_body(18, 5, []), 0),
        (19, bytes([19, 16]) + NUMBER + bytes([33]), 3),
    ]),
    ("how many limits", [
        (17, yes_body(17, 5, []), 0),
        (17, bytes([17, 0, 5, 17]), 3),
        (18, bytes([18, 0, 5, 17]), 3),
    ]),
    ("each line", [
        (16, ticket_body(NUMBER, [b""]), 1),
        (16, ticket_body(NUMBER, [bytes([7, 0])]), 1),
        (16, ticket_body(NUMBER, [bytes([1, 0])]), 2),
        (16, ticket_body(NUMBER, [PERSONS, bytes([4])]), 2),
        (16, bytes([16]) + NUMBER + bytes([1, 33]), 1),
        (17, yes_body(17, 5, [ELSE]), 2),
        (18, yes_body(18, 5, [PERSONS, ELSE]), 2),
    ]),
    ("the number of a key", [
        (17, yes_body(17, 4095, []), 0),
        (17, yes_body(17, 4096, []), 2),
        (18, yes_body(18, 4096, []), 2),
        (20, bytes([20, 15, 255]), 0),
        (20, bytes([20, 16, 0]), 2),
    ]),
    ("another kind", [
        (16, yes_body(17, 5, [PERSONS]), 1),
        (17, yes_body(18, 5, [PERSONS]), 1),
        (18, yes_body(17, 5, [PERSONS]), 1),
        (19, yes_body(18, 5, [PERSONS]), 1),
        (19, bytes([19]) + yes_body(18, 5, [PERSONS]), 1),
        (19, bytes([19]) + ticket_body(NUMBER, LINES), 1),
        (19, bytes([19]) + ticket_body(NUMBER, LINES) + yes_body(17, 5, []), 1),
        (20, bytes([21, 0, 5]), 1),
    ]),
]

# Two tickets without their MACs, whether they are the same, and whether the first is the second with lines added.
NAMES = [bytes([5, 2]) + b"ab", bytes([5, 3]) + b"abc"]
PAIRS = [
    (NUMBER, LINES, NUMBER, LINES, True, True),
    (NUMBER, LINES, NUMBER, LINES[:2], False, True),
    (NUMBER, LINES[:2], NUMBER, LINES, False, False),
    (NUMBER, LINES, bytes([0, 0, 1, 7]), LINES, False, False),
    (NUMBER, LINES, bytes([7, 0, 0, 0]), LINES[:2], False, False),
    (NUMBER, [MUSEUMS, PERSONS, ELSE], NUMBER, LINES, False, False),
    (NUMBER, [NAMES[1]], NUMBER, [NAMES[0]], False, False),
    (NUMBER, [NAMES[0], PERSONS], NUMBER, [NAMES[0], ELSE], False, False),
    (NUMBER, [PERSONS, PERSONS, PERSONS], NUMBER, [PERSONS], False, True),
]


# Bytes of Rattle, broken into lines after each 24.
def literal(data):
    parts = ["".join(f"\\x{byte:02x}" for byte in data[at : at + 24]) for at in range(0, len(data), 24)]
    return 'b"' + "\\\n        ".join(parts) + '"'


def word(flag):
    return "true" if flag else "false"


def const(what, name, kind, value):
    print(f"\n// {what}")
    print(f"pub const {name}: {kind} = {value};")


def table(what, name, kind, rows):
    print(f"\n// {what}")
    print(f"pub const {name}: [{kind}; {sum(len(group) for _, group in rows)}] = [")
    for title, group in rows:
        if title:
            print(f"    // {title}")
        for fields in group:
            print("    " + fields + ",")
    print("];")


# The kinds and the faults of Rattle, by their numbers; no fault is 0.
KINDS = {16: "Ticket", 17: "Yes", 18: "Tied", 19: "Passed", 20: "Key"}
FAULTS = {1: "Shape", 2: "Unreadable", 3: "TooMany"}


def told(fault):
    return f"Some(Fault::{FAULTS[fault]})" if fault else "None"


def tables():
    print("// Written by vectors.py: the MACs are from Python's hmac, which calls OpenSSL.")
    print("use codec::Kind;\nuse lines::Fault;")
    const("The house's key.", "HOUSE", "[u8; 32]", "*" + literal(HOUSE))
    table("Ticket 7 with its first line, with two, and with three.", "TICKETS", "&[u8]", [("", [literal(t) for t in TICKETS])])
    const("Key 5.", "KEY", "&[u8]", literal(KEY))
    table("A yes of key 5 without limits, and with one.", "YESES", "&[u8]", [("", [literal(y) for y in YESES])])
    const("The second yes, tied to the third ticket.", "TIED", "&[u8]", literal(TIED))
    const("The same as it is passed on.", "PASSED", "&[u8]", literal(PASSED))
    table(
        "The kind that is looked for, bytes to which 32 more are added, and the fault that is told of them all, if they aren't read.",
        "TOLD",
        "(Kind, &[u8], Option<Fault>)",
        [(title, [f"(Kind::{KINDS[kind]}, {literal(data)}, {told(fault)})" for kind, data, fault in group]) for title, group in TOLD],
    )
    table(
        "Two tickets without their MACs; whether they are the same, and whether the first is the second with lines added.",
        "PAIRS",
        "(&[u8], &[u8], bool, bool)",
        [("", [f"({literal(ticket_body(m, ls))}, {literal(ticket_body(n, ks))}, {word(same)}, {word(more)})" for m, ls, n, ks, same, more in PAIRS])],
    )


def in_hex():
    rows = [("MAC of the number", ticket_mac(NUMBER, []))]
    rows += [(f"MAC of line {n}", ticket_mac(NUMBER, LINES[:n])) for n in (1, 2, 3)]
    rows += [("the ticket", TICKETS[2]), ("the key", KEY), ("MAC of the byte 1", yes_mac([])), ("MAC of the limit", yes_mac([DAYS]))]
    rows += [("the yes", YESES[1]), ("the tie", TIE), ("the tied yes, as it is shown", TIED), ("the tied yes, as it is passed on", PASSED)]
    for what, data in rows:
        print(f"| {what} | `{data.hex(' ')}` |")


if sys.argv[1:] == ["hex"]:
    in_hex()
else:
    tables()
