#!/usr/bin/env python3
"""Refuses each growth of memory in turn, one in a run, and looks at what the command left: bench/growths.py [STEP [FIRST]]

A run of each command counts what it asks of the C library's allocator; then it is run once for each of these calls, or for every STEPth from FIRST
on, and that one is refused. The command says that memory is wanting, or that
the disk failed whose call wanted it, or answers as with enough of it; what it printed is the beginning of that; the
archive is sound, holds whole batches, and takes the same command then. It needs the built program and a C compiler. It proves nothing, and is
no part of the gate.
"""
import os
import shutil
import subprocess
import sys
import tempfile

from kills import ASKS, BATCH, EXAMPLES, PROGRAM, SHEETS, Archive, base_of, dump_of, fresh, packets

HERE = os.path.dirname(os.path.abspath(__file__))


# Every so manyth growth of a `make` is refused.
MAKE_STEP = 5_000


class Growths:
    """The allocator that refuses, in a folder of its own."""

    def __init__(self, top):
        self.library = os.path.join(top, "growths.so")
        self.told = os.path.join(top, "growths")
        subprocess.run(["cc", "-shared", "-fPIC", "-O2", "-o", self.library, os.path.join(HERE, "growths.c"), "-ldl"], check=True)

    def run(self, archive, words, refused=0):
        """The status of a command of which one growth is refused, what it printed and what it said."""
        env = dict(os.environ, YARCH_HOME=archive.folder, LD_PRELOAD=self.library, GROWTH=str(refused), GROWTHS=self.told)
        ran = subprocess.run([PROGRAM, *words], env=env, stdin=subprocess.DEVNULL, capture_output=True)
        return ran.returncode, ran.stdout, ran.stderr

    def count(self):
        with open(self.told) as file:
            return int(file.read())


def refusals(growths, top, base, words, step, first, left):
    """How many growths a command has, and of how many of those that were refused it told. Where jobs run, how many there are differs a little."""
    expected = growths.run(fresh(top, base), words)
    assert expected[0] == 0, expected
    count = growths.count()
    told = 0
    for refused in range(first, count + 1, step):
        archive = fresh(top, base)
        status, out, err = growths.run(archive, words, refused)
        if words[:2] == ["load", "--ask"]:
            # each ask is answered at some moment of the load
            out = b"".join(out.splitlines(True)[-1:]) if status == 0 else b""
        if status == 0:
            assert out and expected[1].endswith(out) and err == b"", (refused, out, err)
        else:
            # a call of the disk that wants memory itself has failed
            assert (status, err) in ((7, b"out of memory\n"), (7, b""), (5, b"disk fault\n")), (refused, status, err)
            assert expected[1].startswith(out), (refused, out)
            told += 1
        left(archive)
    return count, told


def main():
    step = int(sys.argv[1]) if len(sys.argv) > 1 else 1
    first = int(sys.argv[2]) if len(sys.argv) > 2 else 1
    top = tempfile.mkdtemp(prefix="cudrakh-growths-", dir="/dev/shm" if os.path.isdir("/dev/shm") else None)
    try:
        growths = Growths(top)
        dump = dump_of(top, "first.dump", packets(150, 1_000_000_000))
        links = [dump, dump_of(top, "other.dump", packets(150, 1_100_000_000))]
        link = os.path.join(EXAMPLES, "two-links.dump")
        nothing = dump_of(top, "nothing.dump", b"")
        empty, _ = base_of(top, "empty")
        loaded, _ = base_of(top, "loaded", link)

        script = os.path.join(EXAMPLES, "tables.sql")
        tables = Archive(os.path.join(top, "tables"))
        assert tables.run("create", *SHEETS, script)[0] == 0
        route = ["load", "--route", os.path.join(EXAMPLES, "route.sql"), os.path.join(EXAMPLES, "link-1.dump")]

        def not_made(archive):
            assert archive.rows() in (None, 0)
            assert archive.run("create", *SHEETS)[0] in (0, 1)

        def whole_batches(archive):
            rows = archive.rows()
            assert rows == 150 or rows % BATCH == 0, rows
            assert archive.run("load", dump)[1].endswith(" rows 150")

        def routed(archive):
            archive.rows()
            assert archive.run(*route)[1].endswith(" rows 481")

        def links_whole(archive):
            archive.rows()
            assert archive.run("load", *links)[1].endswith(" rows 300")

        def sound(archive):
            rows = archive.rows()
            assert rows is None or rows <= 30_800, rows
            assert archive.run("make", "7")[0] == (0 if rows is None else 1)

        def as_before(archive):
            assert archive.rows() == 521

        for words, base, left in (
            (["scan", nothing], None, lambda archive: None),
            (["scan", link], None, lambda archive: None),
            (["values", *SHEETS, link, "temp"], None, lambda archive: None),
            (["create", *SHEETS], None, not_made),
            (["create", *SHEETS, script], None, not_made),
            (["load", dump], empty.folder, whole_batches),
            (["load", "--ask", ASKS, dump], empty.folder, whole_batches),
            (["load", "--fillers", "2", *links], empty.folder, links_whole),
            (["load", "--ask", ASKS, "--fillers", "2", *links], empty.folder, links_whole),
            (route, tables.folder, routed),
            (["query", "--ask", ASKS], loaded.folder, as_before),
            (["query", "--sql", os.path.join(EXAMPLES, "pass.sql")], loaded.folder, as_before),
            (["recover"], loaded.folder, as_before),
            (["verify"], loaded.folder, as_before),
            (["make", "7"], None, sound),
        ):
            # each run of a `make` takes seconds
            far = step if words[0] != "make" else max(step, MAKE_STEP)
            count, told = refusals(growths, top, base, words, far, first, left)
            print(f"{' '.join(words[:2])}: of {count} growths {told} were refused and told, and nothing was lost", flush=True)
    finally:
        shutil.rmtree(top)


if __name__ == "__main__":
    main()
