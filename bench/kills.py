#!/usr/bin/env python3
"""Kills each command of the program at random moments, and looks at what it left: bench/kills.py [ROUNDS [SEED]]

Each round runs a command on an archive, kills it (SIGKILL) after a random part of the time that the command takes, and asks of the archive:
that it opens; that it is sound; that it holds what was acknowledged before, and of a load whole batches; that the same command, given again,
ends as if nothing had been. It needs the built program, and writes below /dev/shm or /tmp. It proves nothing, and is no part of the gate.
"""
import os
import random
import re
import shutil
import subprocess
import sys
import tempfile
import time

TOP = os.path.join(os.path.dirname(os.path.abspath(__file__)), "..")
PROGRAM = os.environ.get("CUDRAKH", os.path.join(TOP, "crates/cudrakh/out/cudrakh"))
EXAMPLES = os.path.join(TOP, "examples")
SHEETS = [os.path.join(EXAMPLES, name + ".csv") for name in ("parameters", "calibrations", "containers")]
ASKS = os.path.join(EXAMPLES, "asks.csv")
BATCH = 64


def packets(count, second):
    """So many packets of 12 octets with a time of their own, one a second."""
    head = bytes([0x08, 0x64, 0xC0, 0x00, 0x00, 0x05])
    return b"".join(head + (second + i).to_bytes(4, "big") + bytes(2) for i in range(count))


class Archive:
    """An archive in a folder of its own."""

    def __init__(self, folder):
        self.folder = folder

    def command(self, *words):
        env = dict(os.environ, YARCH_HOME=self.folder)
        return subprocess.Popen([PROGRAM, *words], env=env, stdin=subprocess.DEVNULL, stdout=subprocess.PIPE, stderr=subprocess.PIPE)

    def run(self, *words):
        """The status of a command, and what it printed or said."""
        ran = self.command(*words)
        out, err = ran.communicate()
        return ran.returncode, (out or err).decode().strip().split("\n")[-1]

    def killed(self, moments, *words):
        """Whether a command was killed before it had ended."""
        ran = self.command(*words)
        time.sleep(random.uniform(0, moments.span))
        ran.kill()
        ran.communicate()
        return moments.tell(ran.returncode < 0)

    def rows(self):
        """How many rows a sound archive has; None where there is none."""
        status, said = self.run("verify")
        if (status, said) == (1, "no archive"):
            return None
        sound = re.fullmatch(r"sound rows (\d+) intervals \d+ late \d+", said)
        assert status == 0 and sound, said
        return int(sound[1])


class Moments:
    """From when to when a command is killed: so that about every second one had not ended."""

    def __init__(self, seconds):
        self.span = seconds

    def tell(self, was_killed):
        self.span *= 1.05 if was_killed else 0.95
        return was_killed


def timed(make):
    begin = time.monotonic()
    make()
    return time.monotonic() - begin


def main():
    rounds = int(sys.argv[1]) if len(sys.argv) > 1 else 100
    random.seed(int(sys.argv[2]) if len(sys.argv) > 2 else 1)
    top = tempfile.mkdtemp(prefix="cudrakh-kills-", dir="/dev/shm" if os.path.isdir("/dev/shm") else None)
    try:
        for name, each in (("create", create), ("load", load), ("load behind a load", load_more), ("load of two links", load_links), ("load by a route", load_route), ("load with asks", load_asks), ("make", make), ("recover", recover), ("verify", verify), ("query", query)):
            killed = tried = 0
            for was_killed in each(top):
                tried, killed = tried + 1, killed + was_killed
                if killed == rounds:
                    break
            print(f"{name}: killed {killed} times, in {tried} rounds, and nothing was lost", flush=True)
    finally:
        shutil.rmtree(top)


def fresh(top, base=None):
    """A folder for a round: empty, or a copy of another."""
    folder = os.path.join(top, "round")
    shutil.rmtree(folder, ignore_errors=True)
    if base:
        shutil.copytree(base, folder)
    return Archive(folder)


def base_of(top, name, *loads):
    """An archive to begin with, and how many seconds its last command took."""
    base = Archive(os.path.join(top, name))
    seconds = timed(lambda: base.run("create", *SHEETS))
    for dump in loads:
        seconds = timed(lambda: base.run("load", dump))
    return base, seconds


def dump_of(top, name, octets):
    path = os.path.join(top, name)
    with open(path, "wb") as file:
        file.write(octets)
    return path


def create(top):
    moments = Moments(base_of(top, "created")[1])
    while True:
        archive = fresh(top)
        killed = archive.killed(moments, "create", *SHEETS)
        rows = archive.rows()
        assert rows in (None, 0), rows
        assert archive.run("create", *SHEETS)[0] == (0 if rows is None else 1)
        yield killed


def load(top):
    dump = dump_of(top, "first.dump", packets(6400, 1_000_000_000))
    base, _ = base_of(top, "empty")
    moments = Moments(base_of(top, "loaded", dump)[1])
    while True:
        archive = fresh(top, base.folder)
        killed = archive.killed(moments, "load", dump)
        rows = archive.rows()
        assert rows % BATCH == 0, rows
        status, said = archive.run("load", dump)
        assert (status, said) == (0, f"load packets 6400 new {6400 - rows} duplicates {rows} idle 0 rows 6400"), said
        assert archive.run("recover") == (0, "recovered rows 6400 filled 0")
        yield killed


def load_more(top):
    first = dump_of(top, "first.dump", packets(6400, 1_000_000_000))
    # later packets of the same intervals, so that each is filled anew
    second = dump_of(top, "second.dump", packets(3200, 1_000_006_400))
    base, _ = base_of(top, "first", first)
    moments = Moments(base_of(top, "both", first, second)[1])
    while True:
        archive = fresh(top, base.folder)
        killed = archive.killed(moments, "load", second)
        rows = archive.rows()
        assert rows >= 6400 and rows % BATCH == 0, rows
        status, said = archive.run("load", second)
        assert (status, said) == (0, f"load packets 3200 new {9600 - rows} duplicates {rows - 6400} idle 0 rows 9600"), said
        yield killed


def load_links(top):
    first = dump_of(top, "first.dump", packets(6400, 1_000_000_000))
    second = dump_of(top, "other.dump", packets(6400, 1_100_000_000))
    words = ["load", "--fillers", "2", first, second]
    base, _ = base_of(top, "empty")
    moments = Moments(timed(lambda: fresh(top, base.folder).run(*words)))
    while True:
        archive = fresh(top, base.folder)
        killed = archive.killed(moments, *words)
        rows = archive.rows()
        assert rows % BATCH == 0, rows
        status, said = archive.run(*words)
        assert (status, said) == (0, f"load packets 12800 new {12800 - rows} duplicates {rows} idle 0 rows 12800"), said
        assert archive.run("recover") == (0, "recovered rows 12800 filled 0")
        yield killed


def load_route(top):
    """Into three tables: each packet makes a row of `tm` and one of another table."""
    dump = dump_of(top, "first.dump", packets(6400, 1_000_000_000))
    words = ["load", "--route", os.path.join(EXAMPLES, "route.sql"), dump]
    base = Archive(os.path.join(top, "tables"))
    base.run("create", *SHEETS, os.path.join(EXAMPLES, "tables.sql"))
    moments = Moments(timed(lambda: fresh(top, base.folder).run(*words)))
    while True:
        archive = fresh(top, base.folder)
        killed = archive.killed(moments, *words)
        rows = archive.rows()
        # a batch is of packets
        assert rows % (2 * BATCH) == 0, rows
        status, said = archive.run(*words)
        assert (status, said) == (0, f"load packets 6400 new {12800 - rows} duplicates {rows} idle 0 rows 12800"), said
        assert archive.run("recover") == (0, "recovered rows 12800 filled 0")
        yield killed


def load_asks(top):
    """Beside two links and fillers, over histories on the way."""
    first = dump_of(top, "first.dump", packets(6400, 1_000_000_000))
    second = dump_of(top, "other.dump", packets(6400, 1_100_000_000))
    words = ["load", "--ask", ASKS, "--fillers", "2", first, second]
    base, _ = base_of(top, "empty")
    moments = Moments(timed(lambda: fresh(top, base.folder).run(*words)))
    while True:
        archive = fresh(top, base.folder)
        killed = archive.killed(moments, *words)
        rows = archive.rows()
        assert rows % BATCH == 0, rows
        status, said = archive.run(*words)
        assert (status, said) == (0, f"load packets 12800 new {12800 - rows} duplicates {rows} idle 0 rows 12800"), said
        assert archive.run("recover") == (0, "recovered rows 12800 filled 0")
        yield killed


def make(top):
    """What was made of an archive is sound, and stands in the way of another."""
    moments = Moments(timed(lambda: fresh(top).run("make", "7")))
    while True:
        archive = fresh(top)
        killed = archive.killed(moments, "make", "7")
        rows = archive.rows()
        assert rows is None or rows <= 30_800, rows
        if rows is not None:
            assert archive.run("make", "7") == (1, "archive exists")
            assert archive.run("recover")[0] == 0
            assert archive.run("verify")[1].endswith(" late 0")
        yield killed


def recover(top):
    """Of an archive whose load was killed behind its rows, so that intervals are late."""
    dump = dump_of(top, "spread.dump", b"".join(packets(64, 1_000_000_000 + 5000 * i) for i in range(100)))
    moments = Moments(base_of(top, "whole", dump)[1])
    late = Archive(os.path.join(top, "late"))
    for _ in range(10000):
        shutil.rmtree(late.folder, ignore_errors=True)
        late.run("create", *SHEETS)
        late.killed(moments, "load", dump)
        if re.search(r" late [1-9]", late.run("verify")[1]):
            break
    rows = late.rows()
    moments = Moments(timed(lambda: fresh(top, late.folder).run("recover")))
    while True:
        archive = fresh(top, late.folder)
        killed = archive.killed(moments, "recover")
        assert archive.rows() == rows
        assert archive.run("recover")[0] == 0
        assert archive.run("verify")[1].endswith(" late 0")
        yield killed


def left_alone(top, *words):
    """A command that writes nothing: the archive stays, octet for octet."""
    base = Archive(os.path.join(top, "both"))
    moments = Moments(timed(lambda: base.run(*words)))
    with open(os.path.join(base.folder, "00000000"), "rb") as file:
        before = file.read()
    while True:
        killed = base.killed(moments, *words)
        with open(os.path.join(base.folder, "00000000"), "rb") as file:
            assert file.read() == before
        yield killed


def verify(top):
    return left_alone(top, "verify")


def query(top):
    return left_alone(top, "query", "--ask", ASKS)


if __name__ == "__main__":
    main()
