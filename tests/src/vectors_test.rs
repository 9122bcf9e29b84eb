//! The second implementation against the project's vectors, which a third hand made.
use crate::block::{block, BLOCK, MAIN};
use crate::damage::{heavy_rows, overloaded_rows};
use crate::library;
use crate::reading::{sheet, zero_runs_hold, Answer, Reader};
use crate::report::Report;
use crate::rs::{Code, Fate};
use crate::run::{blocks_of, part, Input};
use crate::tables::Tables;
use crate::writing::{close, permitted_stream, write_run, write_sector, Follow, FrameTrace, Record};
use std::path::Path;

pub const BLOCKS: [(&str, u32, u8); 3] = [("b1", 0x030000, 0), ("b2", 0, 0x2D), ("z", 0x030000, 0)];

/// A vector, from the data of crate `trials` or, where that program does not use it, from the data here.
pub fn load(name: &str) -> Vec<u8> {
    let here = Path::new(env!("CARGO_MANIFEST_DIR"));
    let folders = ["../crates/trials/data", "data/vectors"];
    let mut paths = folders.iter().map(|f| here.join(f).join(name));
    let path = paths.find(|p| p.exists()).unwrap_or_else(|| panic!("no vector {name}"));
    std::fs::read(path).unwrap()
}

pub fn text(name: &str) -> String {
    String::from_utf8(load(name)).unwrap()
}

/// FNV-1a, by the vectors' README.
pub fn hash(bytes: &[u8]) -> u64 {
    bytes.iter().fold(0xCBF2_9CE4_8422_2325, |h, &byte| (h ^ byte as u64).wrapping_mul(0x0100_0000_01B3))
}

fn records_text(records: &[Record]) -> String {
    let mut lines = String::new();
    for (i, r) in records.iter().enumerate() {
        let head = if r.closed { "closed   ".to_string() } else { format!("sector {:2}", i + 1) };
        lines += &format!("{head} dsv {} state {} level {}\n", r.dsv, r.state, r.level);
    }
    lines
}

fn blocks(report: &mut Report, t: &Tables, reader: &Reader) {
    for (name, first, info) in BLOCKS {
        report.begin(&format!("vectors: {name}"));
        let made = block(&load(&format!("{name}.main")), first, info);
        report.check(made == load(&format!("{name}.block")), || "the block".into());
        let (stream, records) = write_run(t, &made);
        let due = load(&format!("{name}.stream"));
        report.check(stream == due, || "the stream".into());
        report.check(records_text(&records) == text(&format!("{name}.records")), || records_text(&records));
        let kinds: &[&str] = if name == "z" { &["stream"] } else { &["stream", "rstream"] };
        for kind in kinds {
            let s = load(&format!("{name}.{kind}"));
            let again = permitted_stream(t, &made, &mut Follow { stream: &s, at: 0 });
            report.check(again == Some(s.clone()), || format!("{kind} is not permitted"));
            report.check(zero_runs_hold(&s), || format!("zero runs of {kind}"));
            let line = sheet(&reader.block(&s).answer);
            let clean = format!("block {first:06X} rows 0 0 columns 0 0 unknown 0 sync 0");
            report.check(line == clean, || format!("{kind}: {line}"));
        }
        report.end();
    }
}

fn trace_line(f: usize, t: &FrameTrace) -> String {
    let (tried, changed, state, level) = (t.tried as u8, t.changed as u8, t.state, t.level);
    let [d1, d2] = t.dsvs;
    format!(
        "frame {f:2} SY{} shown {} tried {tried} changed {changed} code {:04X} dsv1 {d1} dsv2 {d2} state {state} level {level}",
        t.code, t.shown, t.first
    )
}

/// The line that crate `trials` prints of a sector, by which its peak is held against the one counted here.
fn is_printed(report: &mut Report, name: &str, r: &Record) {
    let line = format!("{name}.sector: answer 0 dsv {} state {} level {} sectors {} peak {}, as due", r.dsv, r.state, r.level, r.sectors, r.peak);
    let printed = text("../stdout");
    report.check(printed.lines().any(|other| other == line), || format!("not printed: {line}"));
}

/// `st0` to `st3`, frame by frame.
fn far_out(report: &mut Report, t: &Tables) {
    report.begin("vectors: st0 to st3");
    for s in 0..4u8 {
        let mut record = st_record(s);
        let sector = load(&format!("st{s}.sector"));
        let (stream, traces) = write_sector(t, &mut record, &sector);
        report.check(stream == load(&format!("st{s}.stream")), || format!("st{s}: the stream"));
        let due = text(&format!("st{s}.trace"));
        for (f, (trace, line)) in traces.iter().zip(due.lines()).enumerate() {
            let ours = trace_line(f, trace);
            report.check(ours == line, || format!("st{s}: {ours} for {line}"));
        }
        let r = record;
        let last = format!("state {} level {} dsv {} sectors {} closed 0", r.state, r.level, r.dsv, r.sectors);
        report.check(due.lines().nth(26) == Some(&last), || format!("st{s}: {last}"));
        is_printed(report, &format!("st{s}"), &record);
    }
    report.end();
}

/// The record before sector `st` s, by the vectors' README.
pub fn st_record(s: u8) -> Record {
    Record::open(1 + s % 4, s / 4, 16 * s as i64 - 56, 3)
}

fn trial14(report: &mut Report, t: &Tables) {
    report.begin("vectors: trial14");
    for line in text("trial14/list").lines() {
        let w: Vec<&str> = line.split(' ').collect();
        let n = |i: usize| w[i].parse::<i64>().unwrap();
        let mut record = Record::open(n(2) as u8, n(3) as u8, n(4), n(5) as u32);
        let sector = load(&format!("trial14/{}.sector", w[0]));
        let (stream, traces) = write_sector(t, &mut record, &sector);
        report.check(stream == load(&format!("trial14/{}.stream", w[0])), || line.into());
        let f = &traces[0];
        let ours = [f.dsv_kept_and_other[0], f.dsv_kept_and_other[1], f.tried as i64, f.changed as i64];
        report.check(ours == [n(8), n(10), n(12), n(14)], || format!("{line}: {ours:?}"));
        let after = [record.state as i64, record.level as i64, record.dsv, record.sectors as i64];
        report.check(after == [n(16), n(17), n(18), n(19)], || format!("{line}: {after:?}"));
        is_printed(report, &format!("trial14/{}", w[0]), &record);
    }
    report.end();
}

/// The bytes of a line of hexadecimal digits.
fn bytes(digits: &str) -> Vec<u8> {
    digits.as_bytes().chunks(2).map(|pair| u8::from_str_radix(std::str::from_utf8(pair).unwrap(), 16).unwrap()).collect()
}

/// Rows with marks, by the second decoder and by the library: the row, the marked places, what becomes of it, and the row after.
fn rows(report: &mut Report) {
    report.begin("vectors: rows with marks");
    let (code, list) = (Code::row(), text("rows.txt"));
    for line in list.lines() {
        let words: Vec<&str> = line.split(' ').collect();
        let [row, places, fate, after] = words[..] else { panic!("{line}") };
        let (row, after) = (bytes(row), bytes(after));
        let mut erasures = [0; 182];
        places.split(',').filter(|place| *place != "-").for_each(|place| erasures[place.parse::<usize>().unwrap()] = 1);
        let due = match fate {
            "clean" => Fate::Unchanged,
            "changed" => Fate::Changed,
            "past" => Fate::PastHelp,
            other => panic!("{other}"),
        };
        let (mut ours, mut theirs) = (row.clone(), row);
        let fate = code.repair_erased(&mut theirs, &erasures);
        report.check(fate == due && theirs == after, || format!("{line}: {fate:?}"));
        let answer = library::correct_row(&mut ours, &erasures);
        report.check(answer == library::fate_number(due) && ours == after, || format!("{line}: {answer}"));
    }
    report.check(list.lines().count() == 65, || "65 rows".into());
    report.end();
}

/// Rows of the light repair, by the second decoder and by the library: the row, what becomes of it, and the row after.
fn light_rows(report: &mut Report) {
    report.begin("vectors: light repair of rows");
    let (code, list) = (Code::light_row(), text("light.txt"));
    for line in list.lines() {
        let words: Vec<&str> = line.split(' ').collect();
        let [row, fate, after] = words[..] else { panic!("{line}") };
        let (row, after) = (bytes(row), bytes(after));
        let (due, near) = match fate {
            "repaired" => (library::REPAIRED, Some(&after)),
            "heavier" => (library::HEAVIER, None),
            other => panic!("{other}"),
        };
        report.check(code.nearest(&row).as_ref() == near, || format!("{line}: the second decoder"));
        let mut ours = row;
        let answer = library::correct_light_row(&mut ours);
        report.check(answer == due && ours == after, || format!("{line}: {answer}"));
    }
    report.check(list.lines().count() == 40, || "40 rows".into());
    report.end();
}

/// Streams with flipped bits. The sheets are those of document 02's vectors, with marks: of the earlier streams these changed the line of burst20000, whose rows of
/// nearly all unknown words are near the row of zeros. The later ones were made of b1's stream for the number of their rows with 2e + f over 10.
fn damaged(report: &mut Report, reader: &Reader) {
    report.begin("vectors: damaged");
    for line in text("damaged/sheets.tsv").lines() {
        let (name, due) = line.split_once('\t').unwrap();
        let stream = load(&format!("damaged/{name}.stream"));
        let ours = sheet(&reader.block(&stream).answer);
        report.check(ours == due, || format!("{name}: {ours} for {due}"));
    }
    let right = load("b1.stream");
    for (name, due) in [("tenunknown", 0), ("limit", 8), ("eight", 8), ("nine", 9)] {
        let overloaded = overloaded_rows(reader, &right, &load(&format!("damaged/{name}.stream")));
        report.check(overloaded == due, || format!("{name}: {overloaded} overloaded rows"));
    }
    report.end();
}

/// The run of three blocks, by the README of its vectors.
pub fn run_inputs() -> Vec<Input> {
    let main = load("run/run.main");
    let input = |(part, first): (&[u8], u32)| Input { main: part.to_vec(), first, info: 0x25 };
    main.chunks(MAIN).zip([0x02FFE0, 0x02FFF0, 0x030000]).map(input).collect()
}

/// A record as the lists of document 02's vectors have it, but for its last word, which is request 5's mark.
pub fn record_line(r: &Record) -> String {
    let mark = r.mark.map_or("none".into(), |dsv| dsv.to_string());
    format!("record {} {} {} {} {} {} {mark}", r.state, r.level, r.dsv, r.sectors, r.closed as u8, r.peak)
}

/// The closing code from the records of the vectors: the stored blocks' own first, then those around the point where the choice tips.
fn closings(report: &mut Report, t: &Tables) {
    report.begin("vectors: closing codes by DSV");
    let list = text("closing.tsv");
    for line in list.lines().skip(1) {
        let w: Vec<&str> = line.split('\t').collect();
        let n = |i: usize| w[i].parse::<i64>().unwrap();
        let mut record = Record::open(n(1) as u8, n(2) as u8, n(3), 16);
        let closing = close(t, &mut record);
        report.check(closing.dsvs == [n(4), n(5)], || format!("{line}: {:?}", closing.dsvs));
        report.check(closing.code == u32::from_str_radix(w[6], 16).unwrap().to_be_bytes(), || format!("{line}: {:02X?}", closing.code));
        let due = Record { closed: true, peak: n(3).unsigned_abs(), ..Record::open(1, n(7) as u8, n(8), 16) };
        report.check(record == due, || format!("{line}: {record:?}"));
        if w[0] != "-" {
            let stream = load(&format!("{}.stream", w[0]));
            report.check(stream.ends_with(&closing.code), || format!("{line}: the stored stream ends otherwise"));
        }
    }
    report.check(list.lines().count() == 28, || "27 records".into());
    report.end();
}

/// The run's blocks, its stream and its records.
fn run_written(report: &mut Report, t: &Tables) {
    report.begin("vectors: the run, written");
    let blocks = blocks_of(&run_inputs());
    let (due_blocks, due_stream) = (load("run/run.blocks"), load("run/run.stream"));
    for k in 0..3 {
        let place = BLOCK * k..BLOCK * (k + 1);
        report.check(blocks[place.clone()] == due_blocks[place], || format!("block {k}"));
    }
    let (stream, records) = write_run(t, &blocks);
    for (s, (ours, due)) in stream.chunks(4_836).zip(due_stream.chunks(4_836)).enumerate() {
        report.check(ours == due, || format!("sector {s} of the stream, or the closing code after the last"));
    }
    let list = text("run/run.records");
    report.check(list.lines().count() == 49 && records.len() == 49, || format!("{} records", records.len()));
    for (record, line) in records.iter().zip(list.lines()) {
        let ours = record_line(record);
        report.check(*line == ours, || format!("{ours} for {line}"));
    }
    report.end();
}

/// Both streams of the run are permitted, seams and closing codes included: that of `run.stream` is the Primary, that of `run.rstream` the Secondary.
fn run_permitted(report: &mut Report, t: &Tables) {
    report.begin("vectors: the run, permitted");
    let blocks = blocks_of(&run_inputs());
    for name in ["run.stream", "run.rstream"] {
        let stream = load(&format!("run/{name}"));
        let again = permitted_stream(t, &blocks, &mut Follow { stream: &stream, at: 0 });
        report.check(again.as_ref() == Some(&stream), || format!("{name} is not permitted"));
        report.check(zero_runs_hold(&stream), || format!("zero runs of {name}"));
    }
    report.end();
}

/// Every block of the run's streams, with the sector readers' marks. A damaged block with at most 8 heavy rows has to read to its main data whatever its line says.
fn run_read(report: &mut Report, reader: &Reader) {
    report.begin("vectors: the run, read");
    let (inputs, right) = (run_inputs(), load("run/run.stream"));
    let mut mended = 0;
    for line in text("run/sheets.tsv").lines() {
        let words: Vec<&str> = line.split('\t').collect();
        let [name, k, due] = words[..] else { panic!("{line}") };
        let (stream, k) = (load(&format!("run/{name}")), k.parse::<usize>().unwrap());
        let answer = reader.block(part(&stream, k)).answer;
        let ours = sheet(&answer);
        report.check(ours == due, || format!("{name} {k}: {ours} for {due}"));
        let is_light = name != "run.damaged" || heavy_rows(part(&right, k), part(&stream, k)) <= 8;
        let is_back = matches!(&answer, Answer::HandedOut { main, first, .. } if *main == inputs[k].main && *first == inputs[k].first);
        report.check(is_back == is_light, || format!("{name} {k}: the main data"));
        mended += usize::from(is_light && name == "run.damaged");
    }
    report.check(mended == 2, || format!("{mended} damaged blocks have at most 8 heavy rows"));
    report.end();
}

pub fn all(report: &mut Report) {
    let (t, reader) = (Tables::new(), Reader::new());
    blocks(report, &t, &reader);
    far_out(report, &t);
    trial14(report, &t);
    rows(report);
    light_rows(report);
    damaged(report, &reader);
    closings(report, &t);
    run_written(report, &t);
    run_permitted(report, &t);
    run_read(report, &reader);
}
