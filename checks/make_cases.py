#!/usr/bin/env python3
"""Writes the stored cases of the program `spot`: cases/spot/NNN-name.in and .out.

The inputs are made here, the outputs by checks/simulate.py. Run it from anywhere; it replaces what stands there.
"""
import random
import sys
from pathlib import Path

sys.dont_write_bytecode = True
from simulate import INPUT_LIMIT, spot

FOLDER = Path(__file__).resolve().parent.parent / "cases" / "spot"
SEED = 20_240_611

cases = []


def case(name, data):
    cases.append((name, data if isinstance(data, bytes) else data.encode("ascii")))


def lines(settings, *trace):
    return "".join(line + "\n" for line in (settings, *trace))


def random_trace(settings, count, processors, addresses, writes=0.3, junk=0.0):
    """A settings line and a trace whose references come back to few addresses, with junk lines here and there."""
    made = [settings]
    recent = [chance.choice(addresses) for _ in range(4)]
    for _ in range(count):
        if chance.random() < junk:
            made.append(chance.choice(JUNK))
            continue
        if chance.random() < 0.5:
            recent[chance.randrange(4)] = chance.choice(addresses)
        operation = "w" if chance.random() < writes else chance.choice("rrrf")
        made.append(f"{chance.randint(1, processors)},{operation},{chance.choice(recent)}")
    return lines(*made)


JUNK = [
    "", ",", ",,", "1,r", "1,r,0,0", "x,r,0", "0,r,0", "255,w,0", "256,r,0", "1,x,0", "01,r,0", "1,w,4294967296", "1 ,r,0", "1,r,-1", "#",
]
chance = random.Random(SEED)

# --- the whole input ---
case("the-worked-trace", lines("b,2,0,1,2", "1,r,0", "1,r,1", "1,r,2", "2,w,2", "1,r,0", "1,r,3", "1,r,2", "3,r,0"))
case("empty-input", "")
case("line-feed-only", "\n")
case("only-line-1", "b,3,0,0,1\n")
case("line-1-without-line-feed", "b,3,0,0,1")
case("bad-line-1-without-line-feed", "x,65,01")
case("last-line-cut-off", "b,1,0,0,1\n1,r,0\n1,r,0")
case("no-trace-but-a-cut-line", "b,1,0,0,1\n1")

# --- line 1: number of fields, then form and size from the left ---
for name, line in [
    ("four-fields", "b,1,0,0"),
    ("six-fields", "b,1,0,0,1,"),
    ("many-commas", "b,1,0,0,1" + "," * 300),
    ("map-of-two-letters", "bt,1,0,0,1"),
    ("map-empty", ",1,0,0,1"),
    ("number-empty", "b,1,,0,1"),
    ("leading-zero", "b,1,00,0,1"),
    ("sign", "b,+1,0,0,1"),
    ("carriage-return", "b,1,0,0,1\r"),
    ("too-large", "b,1,0,0,4294967296"),
    ("largest-number", "b,1,0,0,4294967295"),
    ("many-digits", "b,1,0," + "9" * 400 + ",1"),
    ("wraps-to-one", "b,18446744073709551617,0,0,1"),
    ("large-before-bad-form", "b,4294967296,x,0,1"),
    ("bad-form-before-large", "b,x,4294967296,0,1"),
    ("bad-map-before-large", "x,4294967296,0,0,1"),
    ("fields-before-large", "b,4294967296,0,0"),
    ("size-before-settings", "b,65,0,0,4294967296"),
]:
    case("line-1-" + name, lines(line, "1,r,0", "junk"))

# --- settings ---
for name, line in [
    ("processors-0", "b,0,0,0,1"),
    ("processors-65", "b,65,0,0,1"),
    ("shift-13", "b,1,13,0,1"),
    ("level-17", "b,1,0,17,1"),
    ("ways-0", "b,1,0,0,0"),
    ("ways-17", "b,1,0,0,17"),
    ("thirds-level-16", "t,1,0,16,1"),
    ("thirds-level-17", "t,1,0,17,1"),
    ("thirds-level-16-ways-17", "t,1,0,16,17"),
]:
    case("settings-" + name, lines(line, "1,r,0", "junk"))
case("settings-bit-choice-level-16", lines("b,2,0,16,1", "1,r,0", "1,r,65536", "1,r,0", "1,r,32768", "1,r,0", "2,w,65536", "2,w,0"))
case("settings-thirds-level-15", lines("t,2,0,15,1", "1,r,0", "1,r,98304", "1,r,0", "1,r,49152", "1,r,0", "2,w,98304", "2,w,0"))
case("settings-ways-16", lines("b,1,0,0,16", *[f"1,r,{n}" for n in [*range(16), 0, 16, 1, 0, *range(17)]]))
case("settings-64-processors", lines("b,64,0,3,16", *[f"{p},r,8" for p in range(1, 65)], "64,w,8", "1,w,8", "65,w,8", "0,w,8"))
case("settings-shift-12", lines("b,1,12,0,2", "1,r,0", "1,r,4095", "1,r,4096", "1,r,8191", "1,r,4294967295", "1,r,4294963200", "1,r,4294963199"))

# --- trace lines ---
case("trace-fields", lines("b,2,0,0,2", "", ",", ",,", ",,,", "1", "1,r", "1,r,0", "1,r,0,", "1,r,0,0", "256,r", "x,x,x,x", "1,r,0"))
case("trace-processors", lines("b,2,0,0,2", "0,r,0", "1,r,0", "2,r,0", "3,r,0", "255,r,0", "256,r,0", "257,r,0", "01,r,0", "00,r,0", ",r,0", "1x,r,0", "x1,r,0"))
case("trace-operations", lines("b,2,0,0,2", "1,r,0", "1,w,0", "1,f,0", "1,R,0", "1,x,0", "1,,0", "1,rr,0", "1,r ,0", "1,0,0", "1, r,0", "1,q,0", "1,s,0"))
case("trace-addresses", lines("b,1,0,0,4", "1,r,0", "1,r,4294967295", "1,r,4294967296", "1,r,9999999999", "1,r,00", "1,r,01", "1,r,", "1,r,-0", "1,r,+1", "1,r,0x10", "1,r,1e3", "1,r,1.0", "1,r,1_0", "1,r,4294967295"))
case("trace-order-of-checks", lines("b,1,0,0,1", "256,x,0", "x,r,4294967296", "256,r,x", "1,x,4294967296", "01,x,x", "9,x,0", "9,r,4294967296", "0,r,x", "256,r,0,0"))
case("trace-many-digits", lines("b,2,0,0,2", "1,r,1", "1,r," + "1" * 900, "1,r," + "0" * 900, "1,r," + "9" * 900 + "x", "1" * 900 + ",r,0", "1,r,4294967297", "1,r,18446744073709551617", "1,r,340282366920938463463374607431768211457", "18446744073709551617,r,1", "1,r,1"))
case("trace-many-commas", lines("b,1,0,0,1", "1,r,0" + "," * 900, "," * 900, "1,r,0"))
case("trace-other-bytes", b"b,1,0,0,1\n1,r,0\r\n\xef\xbb\xbf1,r,0\n1,r,\xd9\xa1\n\x00\n1,r,0\x00\n1,\xff,0\n1;r;0\n\"1\",r,0\n1,r,/\n1,r,:\n1,r,0\n")

# --- lists, hits and drops ---
case("hit-moves-to-the-front", lines("b,1,0,0,2", "1,r,0", "1,r,1", "1,r,0", "1,r,2", "1,r,0", "1,r,1"))
case("a-drop-makes-room", lines("b,2,0,0,2", "1,r,0", "1,r,1", "2,w,1", "1,r,2", "1,r,0"))
case("a-drop-after-the-next-reference", lines("b,2,0,0,2", "1,r,0", "1,r,1", "1,r,2", "2,w,1", "1,r,0"))
case("a-drop-in-the-middle", lines("b,2,0,0,3", "1,r,0", "1,r,1", "1,r,2", "2,w,1", "1,r,3", "1,r,0", "1,r,2", "1,r,1"))
case("no-drop-of-what-has-left", lines("b,2,0,0,1", "1,r,0", "1,r,1", "2,w,0", "2,w,1"))
case("no-drop-before-the-first", lines("b,2,0,0,1", "2,w,0", "1,r,0", "2,r,0"))
case("only-writes-drop", lines("b,3,0,0,1", "1,r,0", "2,r,0", "3,f,0", "2,f,0", "1,f,0", "3,w,0", "1,r,0", "2,r,0"))
case("a-refused-write-drops-nothing", lines("b,2,0,0,1", "1,r,0", "3,w,0", "0,w,0", "2,w,00", "2,w,0,", "2,W,0", "1,r,0"))
case("writes-in-turn", lines("b,3,0,1,1", *[f"{1 + n % 3},w,{n % 2}" for n in range(24)]))
case("one-block-two-addresses", lines("b,2,4,1,1", "1,r,16", "2,w,31", "1,r,17", "1,r,32", "2,w,16"))
case("thirds-level-0", lines("t,1,0,0,1", "1,r,0", "1,r,3", "1,r,1", "1,r,0", "1,r,1", "1,r,2", "1,r,5", "1,r,2"))
case("thirds-level-1", lines("t,2,0,1,1", "1,r,0", "1,r,3", "1,r,1", "1,r,0", "1,r,6", "2,w,3", "1,r,0", "2,w,0"))

# --- random traces ---
for settings, count, processors, addresses, junk in [
    ("b,2,0,0,3", 200, 2, range(6), 0.0),
    ("b,3,0,2,2", 300, 3, range(24), 0.0),
    ("b,4,6,4,2", 400, 4, range(0, 8_192, 24), 0.0),
    ("t,4,3,2,3", 400, 4, range(0, 1_024, 5), 0.0),
    ("t,8,12,7,1", 300, 8, range(0, 2**32, 2**26), 0.0),
    ("b,8,12,16,4", 300, 8, range(4_095, 2**32, 2**28), 0.0),
    ("b,16,5,5,16", 400, 16, range(0, 32_768, 1_024), 0.0),
    ("b,64,4,1,8", 500, 64, range(0, 512, 16), 0.0),
    ("b,5,2,1,2", 300, 7, range(0, 64, 3), 0.2),
    ("t,6,0,1,4", 300, 9, range(40), 0.3),
]:
    name = "random-" + settings.replace(",", "-") + ("-with-junk" if junk else "")
    case(name, random_trace(settings, count, processors, addresses, junk=junk))

# --- the limit of the input ---
full = random_trace("b,4,2,3,2", 12_000, 4, range(100, 1_000, 6)).encode("ascii")[:INPUT_LIMIT]
full = full[: full.rindex(b"\n", 0, -8) + 1]
full += b"1,r," + b"9" * (INPUT_LIMIT - len(full) - 5) + b"\n"
assert len(full) == INPUT_LIMIT
case("65536-bytes", full)
case("65537-bytes", full + b"\n")
case("65537-bytes-bad-line-1", b"x\n" + b"\n" * (INPUT_LIMIT - 1))

FOLDER.mkdir(parents=True, exist_ok=True)
for old in [*FOLDER.glob("*.in"), *FOLDER.glob("*.out")]:
    old.unlink()
for at, (name, data) in enumerate(cases):
    (FOLDER / f"{at:03}-{name}.in").write_bytes(data)
    (FOLDER / f"{at:03}-{name}.out").write_bytes(spot(data))
print(f"{len(cases)} cases in {FOLDER}")
