"""Runs program and peers in turn: processor time and peak memory, least of three rounds, and whether they print the same."""
import hashlib, os, subprocess, sys, tempfile

EVER = (0, 999_999_999_999_999)
DAY = (1_772_409_600_000, 1_772_496_000_000)  # 2026-03-02, in milliseconds
REPLAYS = {
    "replay-nothing": (0, 0),
    "replay-name-day": (*DAY, "radio"),
    "replay-name": (*EVER, "radio"),
    "replay-all": EVER,
}
# an APID and sources
SELECTS = {
    "select-apid": ("5", "tm"),
    "select-merge": ("all", "tm", "odd"),
}


def once(words, folder):
    with tempfile.TemporaryFile(dir=folder) as out:
        child = subprocess.Popen(words, stdout=out)
        _, status, used = os.wait4(child.pid, 0)
        child.returncode = os.waitstatus_to_exitcode(status)
        out.seek(0)
        digest = hashlib.sha256()
        for piece in iter(lambda: out.read(1 << 20), b""):
            digest.update(piece)
    if child.returncode != 0:
        sys.exit(f"{words}: status {child.returncode}")
    return used.ru_utime + used.ru_stime, used.ru_maxrss / 1024, digest.hexdigest()


def compare(label, program, peer, folder):
    ours, peers = [], []
    for _ in range(3):
        ours.append(once(program, folder))
        peers.append(once(peer, folder))
    a, b = min(x[0] for x in ours), min(x[0] for x in peers)
    m, n = min(x[1] for x in ours), min(x[1] for x in peers)
    same = ours[0][2] == peers[0][2]
    print(f"{label}  {a:.3f} {b:.3f} {a / b:.2f}  {m:.0f} {n:.0f} {m / n:.2f}  {same}", flush=True)


def sheets(folder):
    return [f"{folder}/{name}.csv" for name in ("parameters", "calibrations", "containers")]


def dump_of(folder, size, *kind):
    dump = f"{folder}/{'-'.join((size, *kind))}.dump"
    if not os.path.exists(dump):
        subprocess.check_call([f"{folder}/dumps", dump, size, *kind])
    return dump


def measure_dumps(bench, folder, program, size):
    dump = dump_of(folder, size)
    for words in (["scan", dump], ["values", *sheets(f"{bench}/sheets"), dump, "temp"]):
        compare(f"{words[0]} {size}", [program, *words], [f"{folder}/plain", *words], folder)


def measure_replays(bench, folder, program, size):
    dump, archive = dump_of(folder, size, "days"), f"{folder}/{size}.archive"
    os.environ["YARCH_HOME"] = archive
    if not os.path.exists(archive):
        subprocess.check_call([program, "create", *sheets(f"{bench}/twelve")], stdout=subprocess.DEVNULL)
    # an archive that stands there whole takes every packet as a duplicate
    subprocess.check_call([program, "load", dump], stdout=subprocess.DEVNULL)
    for label, (start, end, *names) in REPLAYS.items():
        asks = f"{folder}/{label}.csv"
        with open(asks, "w") as sheet:
            sheet.write(f"kind,name,from,to,order,limit,names\nreplay,tm,{start},{end},,,{';'.join(names)}\n")
        peer = [f"{folder}/plain", "replay", archive, str(start), str(end), *names]
        compare(f"{label} {size}", [program, "query", "--ask", asks], peer, folder)


def script_of(apid, *tables):
    source = tables[0] if len(tables) == 1 else f"MERGE({', '.join(tables)})"
    condition = "" if apid == "all" else f" WHERE apid = {apid}"
    return f"SELECT gentime, seqNum, link, pname, length FROM {source}{condition}\n"


def sqlite_of(folder, archive):
    """The rows of the archive as tables of SQLite, made once."""
    database = f"{archive}.sqlite"
    if not os.path.exists(database):
        rows = subprocess.Popen([f"{folder}/plain", "rows", archive], stdout=subprocess.PIPE)
        subprocess.check_call([f"{folder}/sqlite", "make", database], stdin=rows.stdout)
    return database


def measure_selects(bench, folder, program, size):
    """Of an archive of the same dump, with a table more for every second APID."""
    dump, archive = dump_of(folder, size, "days"), f"{folder}/{size}.tables"
    os.environ["YARCH_HOME"] = archive
    if not os.path.exists(archive):
        subprocess.check_call([program, "create", *sheets(f"{bench}/twelve"), f"{bench}/twelve/tables.sql"], stdout=subprocess.DEVNULL)
    subprocess.check_call([program, "load", "--route", f"{bench}/twelve/route.sql", dump], stdout=subprocess.DEVNULL)
    for label, words in SELECTS.items():
        script = f"{folder}/{label}.sql"
        with open(script, "w") as text:
            text.write(script_of(*words))
        ours = [program, "query", "--sql", script]
        compare(f"{label} {size}", ours, [f"{folder}/plain", "select", archive, *words], folder)
        if os.path.exists(f"{folder}/sqlite"):
            compare(f"{label}-sqlite {size}", ours, [f"{folder}/sqlite", "select", sqlite_of(folder, archive), *words], folder)


def main():
    bench, folder, program, sizes = sys.argv[1], sys.argv[2], sys.argv[3], " ".join(sys.argv[4:]).split()
    print("command packets  program-cpu-s peer-cpu-s ratio  program-MB peer-MB ratio  same")
    for size in sizes:
        measure_dumps(bench, folder, program, size)
        measure_replays(bench, folder, program, size)
        measure_selects(bench, folder, program, size)


main()
