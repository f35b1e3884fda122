#!/usr/bin/env python3
"""Prints the records of an archive's journal, a line for each: place, gate, length, kind, and what stands in it, by docs/FORMATS.md.

    examples/journal.py [FILE]    FILE is $YARCH_HOME/00000000 where none is given

`front` is how many rows the history has with the record. The fields are walked through; what only the whole archive tells (names and keys
that repeat, the rules of sheets and values) isn't asked. It needs neither the program nor a lock: beside a running load it tells what is there
at that moment. Octets that are no archive end it with a message, status 1.
"""
import os
import signal
import sys
from datetime import datetime, timedelta

LAST_MOMENT = 253402300799999

class Damaged(Exception):
    """What is wrong with the octets of a record."""


def ask(holds, why):
    if not holds:
        raise Damaged(why)


class Body:
    """The fields of a body, one after the other."""

    def __init__(self, octets):
        self.octets, self.at = octets, 0

    def take(self, count):
        ask(self.at + count <= len(self.octets), "its body ends inside a field")
        self.at += count
        return self.octets[self.at - count : self.at]

    def number(self, octets, signed=False):
        return int.from_bytes(self.take(octets), "big", signed=signed)

    def name(self):
        text = self.take(self.number(1)).decode("latin-1")
        ask(1 <= len(text) <= 64 and text.isprintable() and text.isascii(), "not a name")
        return text


def read_head(body):
    form, exponent, tables = body.number(1), body.number(1), [body.name() for _ in range(body.number(1))]
    ask(form == 1 and exponent == 22, f"format {form} with exponent {exponent}")
    ask(1 <= len(tables) <= 16 and tables[0] == "tm", "the first table isn't tm, or there are more than 16")
    for _ in range(parameters := body.number(2)):
        body.name(), body.take(4)
    for _ in range(calibrations := body.number(2)):
        _, kind = body.name(), body.number(1)
        ask(kind <= 2, f"a calibration of kind {kind}")
        for _ in range(body.number(4)):
            body.take((9, 24, 16)[kind]), kind == 2 and body.name()
    for _ in range(containers := body.number(2)):
        body.name(), body.take(3), body.take(19 * body.number(1)), body.take(6 * body.number(2))
    text = f"tables {','.join(tables)} parameters {parameters} calibrations {calibrations} containers {containers}"
    return len(tables), containers, f"head format {form} exponent {exponent} {text}"


def read_rows(body, tables, containers):
    ask(1 <= (count := body.number(2)) <= 1024, f"an entry of {count} rows")
    for _ in range(count):
        table, moment, link, name = body.number(1), body.number(8, signed=True), body.number(1), body.number(2)
        ask(table < tables and name < containers and link > 0 and 0 <= moment <= LAST_MOMENT, "a row's field is out of range")
        header = body.take(6)
        ask(header[0] >> 5 == 0 and header[0] % 8 * 256 + header[1] != 2047, "a packet of another version, or an idle one")
        body.take(int.from_bytes(header[4:], "big") + 1)
    return count


def read_set(body):
    """The number of segments, and of the rows in them."""
    rows = 0
    for _ in range(segments := body.number(4)):
        parameters = body.number(2)
        body.take(2 * parameters)
        rows += (count := body.number(2))
        ask(parameters > 0 and 1 <= count <= 4096, f"a segment of {parameters} parameters and {count} rows")
        body.take(12)
        for _ in range(count - 1):
            while body.number(1) >= 128:
                pass
        for _ in range(parameters):
            ask((form := body.number(1)) <= 1, f"a column of form {form}")
            body.take(16)
            body.take((count * body.number(1) + 7) // 8 if form else 0)
    return segments, rows


def read_entry(body, before):
    """What is known behind a record: tables, containers, front, and the record's text."""
    tables, containers, front = before
    kind = body.number(1)
    ask(kind in (1, 2, 3) and (kind == 1) == (tables == 0), f"an entry of kind {kind} here")
    if kind == 1:
        tables, containers, text = read_head(body)
    elif kind == 2:
        front += (count := read_rows(body, tables, containers))
        text = f"rows {count}"
    else:
        interval, base = body.number(8, signed=True), body.number(8)
        ask(0 <= interval <= LAST_MOMENT >> 22 and base <= front, f"a fill of interval {interval} and base {base}")
        segments, rows = read_set(body)
        start = datetime(1970, 1, 1) + timedelta(milliseconds=interval << 22)
        text = f"fill interval {interval} ({start:%Y-%m-%dT%H:%M:%S}) base {base} segments {segments} rows {rows}"
    ask(body.at == len(body.octets), "its body goes on behind the entry")
    return (tables, containers, front), text


def print_journal(file):
    """Prints the records; the first that is damaged ends it."""
    size = os.fstat(file.fileno()).st_size
    at, known = 0, (0, 0, 0)
    while size > 1 and (gate := file.read(1)) == b"\1":
        try:
            length = int.from_bytes(file.read(4), "big")
            ask(at + 5 + length < size, "it passes the file's end")
            known, text = read_entry(Body(file.read(length)), known)
        except Damaged as why:
            sys.exit(f"damaged at {at}: {why}")
        print(f"at {at} gate 1 length {length} {text} front {known[2]}")
        at += 5 + length
    if at == 0:
        sys.exit("no archive")
    print(f"at {at} gate {int.from_bytes(gate, 'big')} end, {size - at - 1} octets behind it")


def main():
    signal.signal(signal.SIGPIPE, signal.SIG_DFL)
    home = os.environ.get("YARCH_HOME") or "yarch"
    path = sys.argv[1] if len(sys.argv) > 1 else os.path.join(home, "00000000")
    try:
        with open(path, "rb") as file:
            print_journal(file)
    except OSError as fault:
        sys.exit(f"{path}: {fault.strerror}")


main()
