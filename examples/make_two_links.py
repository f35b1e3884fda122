#!/usr/bin/env python3
"""Makes the dumps of two links, link-1.dump and link-2.dump, and two-links.dump, which is both, one after the other; and what `cudrakh` prints of them:
two-links.scan for `scan`, two-links.values for `values` by the sheets that lie beside them, of the parameters mode, temp, volt and current one after
the other, and archive.out for `create`, `load` of each link's dump, `query --ask asks.csv` and `recover`. The expected texts are computed here, by
nothing of the program.

A satellite is heard by two ground stations, one after the other, for a few minutes each, with half a minute in common. Housekeeping (APID 100)
comes every second, science (APID 101) every three. While the second station listens, the satellite also plays back an hour that nobody heard.
"""
import struct

START = 1772352000  # 2026-03-01T08:00:00Z, in whole seconds since 1970


def packet(apid, count, seconds, fraction, payload, telecommand=False):
    """A space packet (CCSDS 133.0-B) with a secondary header of 6 octets: whole seconds, and a fraction of 1/65,536."""
    data = struct.pack(">IH", seconds, fraction) + payload
    first = (0x10 if telecommand else 0) << 8 | 0x0800 | apid
    return struct.pack(">HHH", first, 0xC000 | count % 16384, len(data) - 1) + data


def idle(count, length):
    return struct.pack(">HHH", 0x07FF, 0xC000 | count % 16384, length - 1) + bytes(length)


def housekeeping(g):
    """Mode (8 bits), temperature (16, signed), voltage (12), 4 bits spare, and in mode 2 the current (16, signed, low octet first)."""
    mode = (0, 1, 2, 2, 1)[g // 60 % 5]
    temp = (g * 37) % 900 - 300
    volt = 2600 + (g * 11) % 900
    payload = struct.pack(">BhH", mode, temp, volt << 4)
    if mode == 2:
        payload += struct.pack("<h", 150 - (g * 7) % 400)
    return packet(100, g, START + g, (g * 4096) % 65536, payload)


def science(g):
    """Events (32 bits) and a level (8)."""
    return packet(101, g // 3, START + g, 32768, struct.pack(">IB", g * g, g % 256))


def heard(first, last):
    for g in range(first, last):
        yield housekeeping(g)
        if g % 3 == 0:
            yield science(g)


def links():
    one = list(heard(3600, 3780))
    one.insert(40, packet(200, 1, START + 3613, 0, b"\x11\x22", telecommand=True))
    one.insert(90, idle(0, 64))
    two = list(heard(3750, 3900))
    played_back = [housekeeping(g) for g in range(0, 3600, 30)]
    both = []
    for i in range(max(len(two), len(played_back))):
        both += two[i : i + 1] + played_back[i : i + 1]
        if i % 50 == 49:
            both.append(idle(i, 16))
    return one, both


def key_of(p):
    """The time in milliseconds, and the first four octets as a number."""
    seconds, fraction = struct.unpack(">IH", p[6:12])
    return 1000 * seconds + fraction * 1000 // 65536, struct.unpack(">I", p[:4])[0]


def scan(packets):
    rows, duplicates, idles = {}, 0, 0
    for p in packets:
        if (p[0] & 7) << 8 | p[1] == 2047:
            idles += 1
            continue
        key = key_of(p)
        if key in rows:
            duplicates += 1
        else:
            rows[key] = len(p)
    lines = [f"row {time} {seq} {length}" for (time, seq), length in sorted(rows.items())]
    lines.append(f"scan packets {len(packets)} rows {len(rows)} duplicates {duplicates} idle {idles}")
    return "".join(line + "\n" for line in lines)


def decimal(millionths):
    return f"{'-' if millionths < 0 else ''}{abs(millionths) // 10**6}.{abs(millionths) % 10**6:06}"


def volts(raw):
    """The line through (0, 0) and (2600, 26.2), and that one and (3500, 34.9), rounded down; above it stays."""
    if raw < 2600:
        return 26200000 * raw // 2600
    return min(26200000 + (34900000 - 26200000) * (raw - 2600) // (3500 - 2600), 34900000)


def cell(name, p):
    """The raw number and the text of a parameter in a packet of housekeeping, where it is there."""
    mode, temp, volt = struct.unpack(">BhH", p[12:17])
    if name == "mode":
        return mode, ("SAFE", "NOMINAL", "PAYLOAD")[mode]
    if name == "temp":
        return temp, decimal(temp * 100000 - 12500000)
    if name == "volt":
        return volt >> 4, decimal(volts(volt >> 4))
    if mode != 2:
        return None
    (current,) = struct.unpack("<h", p[17:19])
    return current, current


def cells(packets, name):
    first = {}
    for p in packets:
        if (p[0] & 7) << 8 | p[1] == 100:
            first.setdefault(key_of(p), p)
    return [(key, cell(name, p)) for key, p in sorted(first.items()) if cell(name, p)]


def text(lines):
    return "".join(line + "\n" for line in lines)


def cell_line(found):
    (time, seq), (raw, value) = found
    return f"cell {time} {seq} {raw} {value}"


def values(packets, name):
    lines = [cell_line(c) for c in cells(packets, name)]
    return text(lines + [f"values {len(lines)}"])


def load(before, packets):
    """The line of a load, and the keys that the archive has afterwards."""
    arrived = [key_of(p) for p in packets if (p[0] & 7) << 8 | p[1] != 2047]
    after = before | set(arrived)
    new = len(after) - len(before)
    idles = len(packets) - len(arrived)
    return f"load packets {len(packets)} new {new} duplicates {len(arrived) - new} idle {idles} rows {len(after)}", after


def name_of(p):
    """The packet's name, by containers.csv."""
    apid = (p[0] & 7) << 8 | p[1]
    if apid == 100:
        return "payload" if p[12] == 2 else "housekeeping"
    return "science" if apid == 101 else "header"


def replay(links, start, end, names):
    """The lines of the packets with start <= time < end of these names, each by the link that brought it first."""
    first = {}
    for link, packets in enumerate(links, 1):
        for p in packets:
            if (p[0] & 7) << 8 | p[1] != 2047:
                first.setdefault(key_of(p), (link, p))
    rows = [(key, link, p) for key, (link, p) in sorted(first.items()) if start <= key[0] < end and name_of(p) in names]
    return [f"packet tm {time} {seq} {link} {name_of(p)} {len(p)}" for (time, seq), link, p in rows]


def archive(one, both):
    """What the commands on an archive print, with the asks of asks.csv."""
    first, keys = load(set(), one)
    second, keys = load(keys, both)
    hour = 1000 * (START + 3600)
    lines = ["created tables 1 parameters 8 containers 4", first, second]
    for k, (name, start, end, step, limit) in enumerate(
        [("temp", hour, hour + 5000, 1, None), ("current", hour - 3600000, hour + 3600000, -1, 3), ("mode", hour - 300000, hour - 200000, 1, None)]
    ):
        found = [c for c in cells(one + both, name) if start <= c[0][0] < end][::step][:limit]
        lines += [f"ask {k + 1} front {len(keys)}"] + [cell_line(c) for c in found] + [f"end {len(found)}"]
    end_of_first = hour + 180000
    rows = replay((one, both), end_of_first - 2000, end_of_first + 2000, ("payload", "science"))
    lines += [f"ask 4 front {len(keys)}"] + rows + [f"end {len(rows)}"]
    return text(lines + [f"recovered rows {len(keys)} filled 0"])


one, both = links()
packets = one + both
open("link-1.dump", "wb").write(b"".join(one))
open("link-2.dump", "wb").write(b"".join(both))
open("archive.out", "w").write(archive(one, both))
open("two-links.dump", "wb").write(b"".join(packets))
open("two-links.scan", "w").write(scan(packets))
open("two-links.values", "w").write("".join(values(packets, name) for name in ("mode", "temp", "volt", "current")))
