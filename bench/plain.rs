//! The plain peers of `scan`, `values`, and of `query` with one replay of table `tm` or one select: `plain scan DUMP`,
//! `plain values PARAMETERS CALIBRATIONS CONTAINERS DUMP NAME`, `plain replay FOLDER FROM TO [NAME..]`, for an archive's folder, times in
//! milliseconds, and packet names, of which none stand for all, and `plain select FOLDER APID TABLE..`, which prints what
//! `SELECT gentime, seqNum, link, pname, length FROM MERGE(TABLE, ..) WHERE apid = APID` selects, without the condition where APID is `all`.
//! `plain rows FOLDER` prints all rows, a line each, from which `sqlite.c` makes its tables.

use std::collections::btree_map::Entry;
use std::collections::BTreeMap;
use std::io::Write;
use std::ops::Range;

fn number(octets: &[u8]) -> u64 {
    octets.iter().fold(0, |high, o| high << 8 | u64::from(*o))
}

/// What is kept of a dump's packets, in key order, and how many there are, repeat a key, and are idle.
struct Rows<T> {
    rows: BTreeMap<(i64, u32), T>,
    packets: u64,
    duplicates: u64,
    idle: u64,
}

fn rows_of<T>(dump: &[u8], keep: impl Fn(Range<usize>) -> T) -> Rows<T> {
    let mut all = Rows { rows: BTreeMap::new(), packets: 0, duplicates: 0, idle: 0 };
    let mut at = 0;
    while at < dump.len() {
        let length = 7 + number(&dump[at + 4..at + 6]) as usize;
        let p = &dump[at..at + length];
        at += length;
        all.packets += 1;
        if number(&p[..2]) & 2047 == 2047 {
            all.idle += 1;
            continue;
        }
        let time = 1000 * number(&p[6..10]) + number(&p[10..12]) * 1000 / 65_536;
        match all.rows.entry((time as i64, number(&p[..4]) as u32)) {
            Entry::Vacant(place) => {
                place.insert(keep(at - length..at));
            }
            Entry::Occupied(_) => all.duplicates += 1,
        }
    }
    all
}

enum Calibration {
    Poly([i128; 4]),
    Points(Vec<(i128, i128)>),
    Enum(Vec<(i128, String)>),
}

struct Parameter {
    name: String,
    signed: bool,
    little: bool,
    bits: u32,
    calibration: Option<usize>,
}

struct Container {
    name: String,
    parent: Option<usize>,
    condition: Vec<(usize, String, i128)>,
    entries: Vec<(usize, u32)>,
    children: Vec<usize>,
}

#[derive(Default)]
struct Database {
    parameters: Vec<Parameter>,
    calibrations: Vec<(String, Calibration)>,
    containers: Vec<Container>,
}

fn sheet(name: &str) -> Vec<Vec<String>> {
    let text = std::fs::read_to_string(name).unwrap();
    text.lines().skip(1).map(|line| line.split(',').map(String::from).collect()).collect()
}

fn millionths(text: &str) -> i128 {
    let (sign, digits) = text.strip_prefix('-').map_or((1, text), |d| (-1, d));
    let (whole, fraction) = digits.split_once('.').unwrap_or((digits, ""));
    sign * (whole.parse::<i128>().unwrap() * 1_000_000 + format!("{fraction:0<6}").parse::<i128>().unwrap())
}

fn comparison(parameters: &[Parameter], text: &str) -> (usize, String, i128) {
    let start = text.find(['=', '!', '<', '>']).unwrap();
    let end = text.rfind(['=', '<', '>']).unwrap() + 1;
    let name = text[..start].trim();
    let parameter = parameters.iter().position(|p| p.name == name).unwrap();
    (parameter, text[start..end].to_string(), text[end..].trim().parse().unwrap())
}

impl Database {
    fn read(words: &[String]) -> Database {
        let mut db = Database::default();
        for row in sheet(&words[1]) {
            if db.calibrations.last().is_none_or(|(name, _)| *name != row[0]) {
                let empty = match row[1].as_str() {
                    "poly" => Calibration::Poly([0; 4]),
                    "points" => Calibration::Points(Vec::new()),
                    _ => Calibration::Enum(Vec::new()),
                };
                db.calibrations.push((row[0].clone(), empty));
            }
            match &mut db.calibrations.last_mut().unwrap().1 {
                Calibration::Poly(a) => a[row[2].parse::<usize>().unwrap()] = millionths(&row[3]),
                Calibration::Points(points) => points.push((row[2].parse().unwrap(), millionths(&row[3]))),
                Calibration::Enum(labels) => labels.push((row[2].parse().unwrap(), row[3].clone())),
            }
        }
        for row in sheet(&words[0]) {
            let calibration = db.calibrations.iter().position(|(name, _)| *name == row[3]);
            db.parameters.push(Parameter {
                name: row[0].clone(),
                signed: row[1].starts_with("int"),
                little: row[1].ends_with("LE"),
                bits: row[2].parse().unwrap(),
                calibration,
            });
        }
        let mut ends: Vec<u32> = Vec::new();
        for row in sheet(&words[2]) {
            if !row[0].is_empty() {
                let parent = db.containers.iter().position(|c| c.name == row[1]);
                let comparisons = row[2].split(';').filter(|text| !text.trim().is_empty());
                let condition = comparisons.map(|text| comparison(&db.parameters, text)).collect();
                let number = db.containers.len();
                ends.push(parent.map_or(0, |p| ends[p]));
                db.containers.push(Container { name: row[0].clone(), parent, condition, entries: Vec::new(), children: Vec::new() });
                if let Some(parent) = parent {
                    db.containers[parent].children.push(number);
                }
            }
            if row[4].is_empty() {
                continue;
            }
            let end = ends.last_mut().unwrap();
            let at = match row[5].strip_prefix('+') {
                Some(more) => *end + more.parse::<u32>().unwrap(),
                None => row[5].parse().unwrap_or(*end),
            };
            let parameter = db.parameters.iter().position(|p| p.name == row[4]).unwrap();
            *end = at + db.parameters[parameter].bits;
            db.containers.last_mut().unwrap().entries.push((parameter, at));
        }
        assert!(db.containers.iter().skip(1).all(|c| c.parent.is_some()));
        db
    }

    fn raw(&self, packet: &[u8], parameter: &Parameter, at: u32) -> i128 {
        let (first, last) = (at / 8, (at + parameter.bits).div_ceil(8));
        let field = packet[first as usize..last as usize].iter().fold(0u128, |high, o| high << 8 | u128::from(*o));
        let mut value = field >> (8 * last - at - parameter.bits) & ((1 << parameter.bits) - 1);
        if parameter.little {
            let octets = parameter.bits / 8;
            value = (0..octets).fold(0, |low, i| low << 8 | value >> (8 * i) & 255);
        }
        if parameter.signed && value >> (parameter.bits - 1) == 1 {
            return value as i128 - (1 << parameter.bits);
        }
        value as i128
    }

    /// The values of a packet's parameters, and whether nothing passes its end.
    fn extract(&self, packet: &[u8], container: &Container, values: &mut Vec<(usize, i128)>) -> bool {
        for (number, at) in &container.entries {
            let parameter = &self.parameters[*number];
            if at + parameter.bits > 8 * packet.len() as u32 {
                return false;
            }
            values.push((*number, self.raw(packet, parameter, *at)));
        }
        true
    }

    fn holds(&self, container: &Container, values: &[(usize, i128)]) -> bool {
        container.condition.iter().all(|(parameter, operator, number)| {
            values.iter().find(|v| v.0 == *parameter).is_some_and(|(_, raw)| match operator.as_str() {
                "==" => raw == number,
                "!=" => raw != number,
                "<" => raw < number,
                "<=" => raw <= number,
                ">" => raw > number,
                _ => raw >= number,
            })
        })
    }

    fn values(&self, packet: &[u8], values: &mut Vec<(usize, i128)>) {
        values.clear();
        let mut container = &self.containers[0];
        while self.extract(packet, container, values) {
            match container.children.iter().find(|c| self.holds(&self.containers[**c], values)) {
                Some(child) => container = &self.containers[*child],
                None => return,
            }
        }
    }

    fn write(&self, out: &mut impl Write, parameter: &Parameter, raw: i128) {
        let fixed = match parameter.calibration.map(|c| &self.calibrations[c].1) {
            None => return write!(out, "{raw}").unwrap(),
            Some(Calibration::Enum(labels)) => {
                let label = labels.iter().find(|(x, _)| *x == raw).map_or("UNDEF", |(_, label)| label);
                return out.write_all(label.as_bytes()).unwrap();
            }
            Some(Calibration::Poly(a)) => a.iter().rev().fold(0, |sum, a| sum * raw + a),
            Some(Calibration::Points(points)) => {
                let after = points.partition_point(|(x, _)| *x <= raw);
                if after == 0 {
                    points[0].1
                } else if after == points.len() {
                    points[after - 1].1
                } else {
                    let ((x0, y0), (x1, y1)) = (points[after - 1], points[after]);
                    y0 + ((y1 - y0) * (raw - x0)).div_euclid(x1 - x0)
                }
            }
        };
        let (sign, size) = (if fixed < 0 { "-" } else { "" }, fixed.unsigned_abs());
        write!(out, "{sign}{}.{:06}", size / 1_000_000, size % 1_000_000).unwrap();
    }
}

fn scan(words: &[String], out: &mut impl Write) {
    let dump = std::fs::read(&words[0]).unwrap();
    let all = rows_of(&dump, |packet| packet.len());
    for ((time, seq), length) in &all.rows {
        writeln!(out, "row {time} {seq} {length}").unwrap();
    }
    let count = all.rows.len();
    writeln!(out, "scan packets {} rows {count} duplicates {} idle {}", all.packets, all.duplicates, all.idle).unwrap();
}

fn values(words: &[String], out: &mut impl Write) {
    let db = Database::read(words);
    let dump = std::fs::read(&words[3]).unwrap();
    let asked = db.parameters.iter().position(|p| p.name == words[4]).unwrap();
    let (mut values, mut count) = (Vec::new(), 0u64);
    for ((time, seq), packet) in rows_of(&dump, |packet| packet).rows {
        db.values(&dump[packet], &mut values);
        if let Some((_, raw)) = values.iter().find(|v| v.0 == asked) {
            write!(out, "cell {time} {seq} {raw} ").unwrap();
            db.write(out, &db.parameters[asked], *raw);
            out.write_all(b"\n").unwrap();
            count += 1;
        }
    }
    writeln!(out, "values {count}").unwrap();
}

/// Octets of a journal that weren't read yet. `docs/FORMATS.md` says what stands there.
struct Reader<'a>(&'a [u8]);

impl<'a> Reader<'a> {
    fn take(&mut self, count: usize) -> &'a [u8] {
        let (taken, left) = self.0.split_at(count);
        self.0 = left;
        taken
    }

    fn number(&mut self, octets: usize) -> usize {
        number(self.take(octets)) as usize
    }

    fn name(&mut self) -> &'a str {
        let octets = self.number(1);
        std::str::from_utf8(self.take(octets)).unwrap()
    }

    fn packet(&mut self) -> &'a [u8] {
        let length = 7 + number(&self.0[4..6]) as usize;
        self.take(length)
    }
}

/// A row, whose packet stands in the journal.
struct Row<'a> {
    key: (i64, u32),
    received: i64,
    link: u8,
    pname: u16,
    packet: &'a [u8],
}

impl Row<'_> {
    fn apid(&self) -> u64 {
        number(&self.packet[..2]) & 2047
    }
}

/// What a journal holds: the tables, `tm` first, the packet names, how many rows it has, and those of each table, in key order.
#[derive(Default)]
struct Archive<'a> {
    tables: Vec<&'a str>,
    names: Vec<&'a str>,
    front: usize,
    rows: Vec<Vec<Row<'a>>>,
}

impl<'a> Archive<'a> {
    fn read(journal: &'a [u8]) -> Archive<'a> {
        let mut archive = Archive::default();
        let mut journal = Reader(journal);
        while journal.number(1) == 1 {
            let length = journal.number(4);
            let mut body = Reader(journal.take(length));
            match body.number(1) {
                1 => archive.head(&mut body),
                2 => archive.batch(&mut body),
                3 => {} // a fill, of which rows say the same
                kind => panic!("an entry of kind {kind}"),
            }
        }
        for rows in &mut archive.rows {
            rows.sort_by_key(|row| row.key);
            assert!(rows.windows(2).all(|pair| pair[0].key < pair[1].key), "a key stands twice");
        }
        archive
    }

    /// Takes the names of the tables, and those of the containers, which stand behind the parameters and the calibrations.
    fn head(&mut self, head: &mut Reader<'a>) {
        assert_eq!(head.take(2), [1, 22]);
        for _ in 0..head.number(1) {
            self.tables.push(head.name());
            self.rows.push(Vec::new());
        }
        for _ in 0..head.number(2) {
            head.name();
            head.take(4);
        }
        for _ in 0..head.number(2) {
            head.name();
            let kind = head.number(1);
            for _ in 0..head.number(4) {
                match kind {
                    0 => drop(head.take(9)),
                    1 => drop(head.take(24)),
                    _ => drop((head.take(16), head.name())),
                }
            }
        }
        for _ in 0..head.number(2) {
            self.names.push(head.name());
            head.take(3);
            let comparisons = head.number(1);
            head.take(19 * comparisons);
            let entries = head.number(2);
            head.take(6 * entries);
        }
    }

    fn batch(&mut self, batch: &mut Reader<'a>) {
        for _ in 0..batch.number(2) {
            let table = batch.number(1);
            let received = batch.number(8) as i64;
            let link = batch.number(1) as u8;
            let pname = batch.number(2) as u16;
            let packet = batch.packet();
            self.front += 1;
            self.rows[table].push(Row { key: key_of(packet, received), received, link, pname, packet });
        }
    }
}

/// A packet's key. A packet that says no time has that of its reception.
fn key_of(p: &[u8], received: i64) -> (i64, u32) {
    let says_time = p[0] & 8 != 0 && p.len() >= 12;
    let time = if says_time { 1000 * number(&p[6..10]) + number(&p[10..12]) * 1000 / 65_536 } else { received as u64 };
    (time as i64, number(&p[..4]) as u32)
}

fn journal_of(folder: &str) -> Vec<u8> {
    std::fs::read(format!("{folder}/00000000")).unwrap()
}

fn replay(words: &[String], out: &mut impl Write) {
    let journal = journal_of(&words[0]);
    let archive = Archive::read(&journal);
    let (from, to): (i64, i64) = (words[1].parse().unwrap(), words[2].parse().unwrap());
    let asked = |name: &str| words.len() == 3 || words[3..].iter().any(|word| word == name);
    let asked: Vec<bool> = archive.names.iter().map(|name| asked(name)).collect();
    let rows = &archive.rows[0];
    let first = rows.partition_point(|row| row.key.0 < from);
    let end = rows.partition_point(|row| row.key.0 < to);
    let mut count = 0u64;
    writeln!(out, "ask 1 front {}", archive.front).unwrap();
    for row in rows[first..end].iter().filter(|row| asked[row.pname as usize]) {
        let (time, seq) = row.key;
        let name = archive.names[row.pname as usize];
        writeln!(out, "packet tm {time} {seq} {} {name} {}", row.link, row.packet.len()).unwrap();
        count += 1;
    }
    writeln!(out, "end {count}").unwrap();
}

/// Year, month and day of a day since 1970.
fn date(day: i64) -> (i64, i64, i64) {
    // the year begins in March: so the leap day is its last
    let days = day + 719_468;
    let (era, day_of_era) = (days.div_euclid(146_097), days.rem_euclid(146_097));
    let year = (day_of_era - day_of_era / 1460 + day_of_era / 36_524 - day_of_era / 146_096) / 365;
    let day_of_year = day_of_era - (365 * year + year / 4 - year / 100);
    let month = (5 * day_of_year + 2) / 153;
    let month_of_year = if month < 10 { month + 3 } else { month - 9 };
    (400 * era + year + i64::from(month_of_year <= 2), month_of_year, day_of_year - (153 * month + 2) / 5 + 1)
}

fn time_text(out: &mut impl Write, time: i64) {
    let (year, month, day) = date(time.div_euclid(86_400_000));
    let (seconds, millis) = (time.div_euclid(1000).rem_euclid(86_400), time.rem_euclid(1000));
    let (hours, minutes) = (seconds / 3600, seconds / 60 % 60);
    write!(out, "{year:04}-{month:02}-{day:02}T{hours:02}:{minutes:02}:{:02}.{millis:03}", seconds % 60).unwrap();
}

/// The rows of some tables that have an APID, or all, by key; those that tie stand in the order of the tables.
fn selected<'a>(archive: &'a Archive<'a>, apid: Option<u64>, tables: &[String]) -> Vec<&'a Row<'a>> {
    let mut selected = Vec::new();
    for word in tables {
        let table = archive.tables.iter().position(|table| table == word).unwrap();
        selected.extend(archive.rows[table].iter().filter(|row| apid.is_none_or(|apid| row.apid() == apid)));
    }
    if tables.len() > 1 {
        // the rows of each table stand in order: the sort merges these runs
        selected.sort_by_key(|row| row.key);
    }
    selected
}

fn select(words: &[String], out: &mut impl Write) {
    let journal = journal_of(&words[0]);
    let archive = Archive::read(&journal);
    let apid = if words[1] == "all" { None } else { Some(words[1].parse().unwrap()) };
    let rows = selected(&archive, apid, &words[2..]);
    for row in &rows {
        time_text(out, row.key.0);
        writeln!(out, " {} {} {} {}", row.key.1, row.link, archive.names[row.pname as usize], row.packet.len()).unwrap();
    }
    writeln!(out, "select {}", rows.len()).unwrap();
}

fn rows(words: &[String], out: &mut impl Write) {
    let journal = journal_of(&words[0]);
    let archive = Archive::read(&journal);
    for (table, rows) in archive.tables.iter().zip(&archive.rows) {
        for row in rows {
            let ((time, seq), name) = (row.key, archive.names[row.pname as usize]);
            write!(out, "{table} {time} {seq} {} {} {name} ", row.received, row.link).unwrap();
            row.packet.iter().for_each(|octet| write!(out, "{octet:02x}").unwrap());
            out.write_all(b"\n").unwrap();
        }
    }
}

fn main() {
    let words: Vec<String> = std::env::args().skip(1).collect();
    let mut out = std::io::BufWriter::with_capacity(65_536, std::io::stdout().lock());
    match words[0].as_str() {
        "scan" => scan(&words[1..], &mut out),
        "values" => values(&words[1..], &mut out),
        "select" => select(&words[1..], &mut out),
        "rows" => rows(&words[1..], &mut out),
        _ => replay(&words[1..], &mut out),
    }
}
