#!/usr/bin/env python3
"""Runs each command with less memory than it wants, and looks at what it left: bench/memory.py [STEP]

The limit on memory rises by STEP octets (8,192) from one at which the program just starts to one at which the command is done, and for jobs that
run beside each other on to one at which each has its thread. Below that it says that memory is wanting, and what it printed is the beginning of
what it prints with enough of it; the archive is sound, holds whole batches, and takes the same command then. It needs the built program. It proves
nothing, and is no part of the gate.
"""
import os
import resource
import shutil
import subprocess
import sys
import tempfile

from kills import ASKS, BATCH, EXAMPLES, PROGRAM, SHEETS, Archive, base_of, dump_of, fresh, packets

DONE_IN_A_ROW = 4

# A command of jobs is done in turn where there's no memory for their threads: it is tried up to this, and by so many steps at once.
WITH_THREADS = 96 << 20
STEPS_WITH_THREADS = 32


def limited(archive, octets, words):
    """The status of a command within so much memory, what it printed and what it said."""

    def limit():
        resource.setrlimit(resource.RLIMIT_AS, (octets, octets))

    env = dict(os.environ, YARCH_HOME=archive.folder)
    ran = subprocess.run([PROGRAM, *words], env=env, stdin=subprocess.DEVNULL, capture_output=True, preexec_fn=limit)
    return ran.returncode, ran.stdout, ran.stderr


def least(archive):
    """A limit at which the program says that its words are no command."""
    octets = 1 << 20
    while limited(archive, octets, ["nothing"])[0] != 1:
        octets += 1 << 14
    return octets


def refusals(top, base, words, step, upto, left):
    """How often memory was wanting until a command was done a few times in a row, at this limit at least. `left` looks at each archive that was
    refused."""
    whole = fresh(top, base)
    expected = limited(whole, resource.RLIM_INFINITY, words)
    assert expected[0] == 0, expected
    octets = least(whole)
    refused = done = 0
    while done < DONE_IN_A_ROW or octets < upto:
        archive = fresh(top, base)
        status, out, err = limited(archive, octets, words)
        if words[:2] == ["load", "--ask"]:
            # each ask is answered at some moment of the load
            out = b"".join(out.splitlines(True)[-1:]) if status == 0 else b""
            assert expected[1].endswith(out), out
        elif status == 0:
            assert out == expected[1], out
        if status == 0:
            done += 1
        else:
            assert (status, err) == (7, b"out of memory\n"), (octets, status, err)
            assert expected[1].startswith(out) or out == b"", out
            left(archive)
            refused, done = refused + 1, 0
        octets += step
    return refused


def main():
    step = int(sys.argv[1]) if len(sys.argv) > 1 else 8_192
    top = tempfile.mkdtemp(prefix="cudrakh-memory-", dir="/dev/shm" if os.path.isdir("/dev/shm") else None)
    try:
        dump = dump_of(top, "first.dump", packets(6400, 1_000_000_000))
        links = [dump, dump_of(top, "other.dump", packets(6400, 1_100_000_000))]
        link = os.path.join(EXAMPLES, "two-links.dump")
        empty, _ = base_of(top, "empty")
        loaded, _ = base_of(top, "loaded", link)

        def not_made(archive):
            assert archive.rows() in (None, 0)
            assert archive.run("create", *SHEETS)[0] in (0, 1)

        def whole_batches(archive):
            rows = archive.rows()
            assert rows % BATCH == 0, rows
            assert archive.run("load", dump)[1].endswith(" rows 6400")

        def as_before(archive):
            assert archive.rows() == 521

        def links_whole(archive):
            rows = archive.rows()
            assert rows % BATCH == 0, rows
            assert archive.run("load", *links)[1].endswith(" rows 12800")

        def sound(archive):
            rows = archive.rows()
            assert rows is None or rows <= 30_800, rows

        for words, base, left in (
            (["scan", link], None, lambda archive: None),
            (["values", *SHEETS, link, "temp"], None, lambda archive: None),
            (["create", *SHEETS], None, not_made),
            (["load", dump], empty.folder, whole_batches),
            (["load", "--fillers", "2", *links], empty.folder, links_whole),
            (["load", "--ask", ASKS, "--fillers", "2", *links], empty.folder, links_whole),
            (["query", "--ask", ASKS], loaded.folder, as_before),
            (["query", "--sql", os.path.join(EXAMPLES, "pass.sql")], loaded.folder, as_before),
            (["recover"], loaded.folder, as_before),
            (["verify"], loaded.folder, as_before),
            (["make", "7"], None, sound),
        ):
            far, upto = (step * STEPS_WITH_THREADS, WITH_THREADS) if "--fillers" in words or words[0] == "make" else (step, 0)
            wanting = refusals(top, base, words, far, upto, left)
            print(f"{' '.join(words[:2])}: memory was wanting {wanting} times, and nothing was lost", flush=True)
    finally:
        shutil.rmtree(top)


if __name__ == "__main__":
    main()
