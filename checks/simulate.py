#!/usr/bin/env python3
"""An independent simulation of the programs `spot` and `sheet`, written from the rules in docs/ alone.

Reads a program's input on standard input and prints what the program named by the first argument
(else `spot`) must print, byte for byte. For each level and number of ways it keeps caches of their
own: one list of blocks for each processor and set, the latest block first.
"""
import sys

INPUT_LIMIT = 65_536
NUMBER_LIMIT = 4_294_967_295
PROCESSOR_LIMIT = 255

# the refusals that the program can print
SETTING, LEVEL, SHORT_TABLE, PROCESSOR, BLOCKS, FORM, SIZE, CUT_OFF, INPUT = 1, 2, 3, 4, 5, 9, 10, 11, 12

# map letter: (levels offered, sets at level 0); each further level has twice the sets
MAPS = {b"b": (17, 1), b"t": (16, 3)}


class Refused(Exception):
    def __init__(self, number):
        super().__init__(number)
        self.number = number


def read_number(field, limit):
    # bytes.isdigit is true of one or more of the ASCII digits, and of nothing else
    if not field.isdigit() or (field.startswith(b"0") and field != b"0"):
        raise Refused(FORM)
    # no leading zeros here, so more digits than the limit has is too large
    if len(field) > len(str(limit)) or int(field) > limit:
        raise Refused(SIZE)
    return int(field)


def read_letter(field, letters):
    if field not in letters:
        raise Refused(FORM)
    return field


def read_fields(line, count):
    fields = line.split(b",")
    if len(fields) != count:
        raise Refused(FORM)
    return fields


def read_settings(line):
    """Line 1 is map,processors,shift,level,ways; the answer has the count of sets for map and level."""
    letter, *numbers = read_fields(line, 5)
    offered, first_sets = MAPS[read_letter(letter, MAPS)]
    processors, shift, level, ways = [read_number(field, NUMBER_LIMIT) for field in numbers]
    if not (1 <= processors <= 64 and shift <= 12 and level <= 16 and 1 <= ways <= 16):
        raise Refused(SETTING)
    if level >= offered:
        raise Refused(LEVEL)
    return processors, shift, first_sets * 2**level, ways


def read_reference(line):
    processor, operation, address = read_fields(line, 3)
    return (
        read_number(processor, PROCESSOR_LIMIT),
        read_letter(operation, (b"r", b"w", b"f")),
        read_number(address, NUMBER_LIMIT),
    )


class Caches:
    def __init__(self, processors, shift, sets, ways):
        self.shift, self.sets, self.ways = shift, sets, ways
        self.processors = range(1, processors + 1)
        self.lists = {}
        self.references = {p: 0 for p in self.processors}
        self.hits = {p: 0 for p in self.processors}
        self.drops = {p: 0 for p in self.processors}

    def refer(self, processor, operation, address):
        if processor not in self.processors:
            raise Refused(PROCESSOR)
        block = address >> self.shift
        here = block % self.sets
        own = self.lists.setdefault((processor, here), [])
        self.references[processor] += 1
        if block in own:
            self.hits[processor] += 1
            own.remove(block)
        own.insert(0, block)
        if len(own) > self.ways:
            own.pop()
        if operation == b"w":
            for other in self.processors:
                copies = self.lists.get((other, here), [])
                if other != processor and block in copies:
                    copies.remove(block)
                    self.drops[other] += 1


class Study:
    """Caches for every level and number of ways, with what each processor and block has behind it."""

    def __init__(self, processors, shift, first_sets, levels, ways, blocks):
        self.shift, self.blocks = shift, blocks
        self.processors = range(1, processors + 1)
        self.caches = {
            (level, d): Caches(processors, shift, first_sets * 2**level, d)
            for level in range(levels)
            for d in range(1, ways + 1)
        }
        self.known = set()
        self.past = {}  # (processor, block): "held" or "lost"
        self.cold = {p: 0 for p in self.processors}
        self.lost = {p: 0 for p in self.processors}

    def refer(self, processor, operation, address):
        if processor not in self.processors:
            raise Refused(PROCESSOR)
        block = address >> self.shift
        if block not in self.known and len(self.known) == self.blocks:
            raise Refused(BLOCKS)
        self.known.add(block)
        past = self.past.get((processor, block))
        self.cold[processor] += past is None
        self.lost[processor] += past == "lost"
        self.past[processor, block] = "held"
        if operation == b"w":
            for other in self.processors:
                if other != processor and (other, block) in self.past:
                    self.past[other, block] = "lost"
        for caches in self.caches.values():
            caches.refer(processor, operation, address)

    def row(self, p, level, d):
        caches = self.caches[level, d]
        references, hits = caches.references[p], caches.hits[p]
        replaced = references - hits - self.cold[p] - self.lost[p]
        return p, level, caches.sets, d, references, hits, caches.drops[p], self.cold[p], self.lost[p], replaced


def read_study(line):
    """Line 1 is map,processors,shift,levels,ways,blocks."""
    letter, *numbers = read_fields(line, 6)
    offered, first_sets = MAPS[read_letter(letter, MAPS)]
    processors, shift, levels, ways, blocks = [read_number(field, NUMBER_LIMIT) for field in numbers]
    if not (1 <= processors <= 64 and shift <= 12 and 1 <= levels <= 17 and 1 <= ways <= 16 and 1 <= blocks <= 4096):
        raise Refused(SETTING)
    if levels > offered:
        raise Refused(LEVEL)
    counters = processors * (2 * levels * ways + 3)
    if processors * levels * blocks > 5120 or blocks > 256 or processors * blocks > 4096 or counters > 8192:
        raise Refused(SHORT_TABLE)
    return processors, shift, first_sets, levels, ways, blocks


def report(data, set_up, heading, rows):
    """What a program prints for an input, both as bytes."""
    if len(data) > INPUT_LIMIT:
        return b"refused,0,%d\n" % INPUT
    first, *lines = data.split(b"\n")
    try:
        if not lines:
            raise Refused(CUT_OFF if first else FORM)
        caches = set_up(first)
    except Refused as refusal:
        return b"refused,1,%d\n" % refusal.number
    printed = []
    tail = lines.pop()  # what follows the last line feed
    for at, line in enumerate(lines, start=2):
        try:
            caches.refer(*read_reference(line))
        except Refused as refusal:
            printed.append(b"refused,%d,%d" % (at, refusal.number))
    if tail:
        printed.append(b"refused,%d,%d" % (len(lines) + 2, CUT_OFF))
    printed.append(heading)
    printed.extend(b",".join(b"%d" % number for number in row) for row in rows(caches))
    return b"\n".join(printed) + b"\n"


def spot(data):
    def rows(caches):
        return [(p, caches.references[p], caches.hits[p], caches.drops[p]) for p in caches.processors]

    return report(data, lambda line: Caches(*read_settings(line)), b"processor,references,hits,drops", rows)


def sheet(data):
    def rows(study):
        return [study.row(p, level, d) for p in study.processors for level, d in study.caches]

    heading = b"processor,level,sets,ways,references,hits,drops,cold,lost,replaced"
    return report(data, lambda line: Study(*read_study(line)), heading, rows)


if __name__ == "__main__":
    program = {"spot": spot, "sheet": sheet}[sys.argv[1] if len(sys.argv) > 1 else "spot"]
    sys.stdout.buffer.write(program(sys.stdin.buffer.read()))
