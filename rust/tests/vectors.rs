//! Blocks and streams of a second formatter, written from the papers alone: crates/trials/data and tests/data/vectors.
mod common;

use chamanzil::{correct_light_row, correct_row, encode_block, format_block};
use chamanzil::{pool, read_block, read_capture, repair_block, slices};
use chamanzil::{LightOutcome, Outcome, Record, Refusal, Repaired, Stretch, Writer};
use chamanzil::{BLOCK, BLOCK_STREAM, CLOSING, MAIN, ROW, SECTOR, SECTOR_STREAM, STREAM};
use common::{buffer, by_sectors, entries, in_order, stream_of, Block};
use std::fs;
use std::path::{Path, PathBuf};

fn path(name: &str) -> PathBuf {
    Path::new(env!("CARGO_MANIFEST_DIR"))
        .parent()
        .unwrap()
        .join(name)
}

#[allow(clippy::unnecessary_box_returns)]
fn bytes<const N: usize>(name: &str) -> Box<[u8; N]> {
    let bytes = fs::read(path(name)).unwrap_or_else(|e| panic!("{name}: {e}"));
    bytes
        .into_boxed_slice()
        .try_into()
        .unwrap_or_else(|_| panic!("{name}: another length"))
}

#[test]
fn blocks() {
    for (name, first, info) in [
        ("b1", 0x03_0000, 0x00),
        ("b2", 0, 0x2D),
        ("z", 0x03_0000, 0x00),
    ] {
        let main = bytes(&format!("crates/trials/data/{name}.main"));
        let block = bytes(&format!("crates/trials/data/{name}.block"));
        let stream = bytes(&format!("crates/trials/data/{name}.stream"));
        assert_eq!(encode_block(&main, None, first, info).unwrap(), block);
        assert_eq!(format_block(&main, first, info).unwrap(), stream);
        assert_eq!(stream_of(&block), stream);
        assert_eq!(read_block(&stream).unwrap().main, main);
    }
}

/// Permitted streams with choices taken at random.
#[test]
fn other_choices() {
    for name in ["b1", "b2"] {
        let read = read_block(&bytes(&format!("crates/trials/data/{name}.rstream"))).unwrap();
        assert_eq!(read.main, bytes(&format!("crates/trials/data/{name}.main")));
    }
}

#[test]
fn sheets() {
    let list = fs::read_to_string(path("tests/data/vectors/damaged/sheets.tsv")).unwrap();
    let mut lines = 0;
    for line in list.lines() {
        let (name, due) = line.split_once('\t').unwrap();
        let stream = fs::read(path(&format!("tests/data/vectors/damaged/{name}.stream"))).unwrap();
        let (mut block, mut erasures, mut main) = (vec![0; BLOCK], vec![0; BLOCK], vec![0; MAIN]);
        let got = <&[u8; STREAM]>::try_from(&stream[..]).map_or_else(
            |_| {
                slices::read_block(&stream, &mut block, &mut erasures, &mut main, &mut [0; 8])
                    .map(|()| String::new())
            },
            |stream| read_block(stream).map(|read| read.to_string()),
        );
        let words = got.unwrap_or_else(|refusal| refusal.to_string());
        assert_eq!(words.split(':').next(), Some(due), "{name}");
        lines += 1;
    }
    assert_eq!(lines, 12);
}

/// The bytes and marks of a stream that pool.tsv names from the second formatter's folder.
fn reading(name: &str) -> (Block, Block) {
    let file = name.rsplit('/').next().unwrap();
    let folder = if name.contains("damaged/") {
        "tests/data/vectors/damaged"
    } else {
        "crates/trials/data"
    };
    let (block, erasures, _) = by_sectors(&bytes(&format!("{folder}/{file}")));
    (block, erasures)
}

/// FNV-1a, in hexadecimal digits.
fn hash(bytes: &[u8]) -> String {
    let start = 0xCBF2_9CE4_8422_2325;
    let hash = bytes.iter().fold(start, |hash: u64, byte| {
        (hash ^ u64::from(*byte)).wrapping_mul(0x100_0000_01B3)
    });
    format!("{hash:016X}")
}

/// The repairer's answer, as the bench sheet begins.
fn answer_of(repaired: Result<Repaired, Refusal>) -> String {
    let told = repaired.map(|read| {
        let (rows, columns) = (read.rows, read.columns);
        format!(
            "block {:06X} rows {} {} columns {} {}",
            read.first, rows.changed, rows.past_help, columns.changed, columns.past_help
        )
    });
    let words = told.unwrap_or_else(|refusal| refusal.to_string());
    words.split(':').next().unwrap().to_string()
}

/// Two streams read and pooled, in both orders: hashes of bytes and marks, how many marks, and the repairer's answer.
#[test]
fn pooled() {
    let list = fs::read_to_string(path("tests/data/vectors/pool.tsv")).unwrap();
    for line in list.lines().skip(1) {
        let words: Vec<&str> = line.splitn(3, '\t').collect();
        let [first, second, due] = words[..] else {
            panic!("{line}")
        };
        for (one, other) in [(first, second), (second, first)] {
            let ((mut block, mut erasures), (bytes, marks)) = (reading(one), reading(other));
            pool(&mut block, &mut erasures, &bytes, &marks).unwrap();
            let hashes = [hash(&block[..]), hash(&erasures[..])].join("\t");
            let marked: u32 = erasures.iter().map(|mark| u32::from(*mark)).sum();
            let answer = answer_of(repair_block(&mut block, &erasures));
            assert_eq!(format!("{hashes}\t{marked}\t{answer}"), due, "{line}");
        }
    }
    assert_eq!(list.lines().count(), 10);
}

/// A capture's bytes, and what its text says: the counts, and a start and a length for each stretch.
fn capture(name: &str) -> (Vec<u8>, String, Vec<Stretch>) {
    let file = |ending: &str| {
        fs::read(path(&format!(
            "tests/data/vectors/captures/{name}.{ending}"
        )))
    };
    let text = String::from_utf8(file("txt").unwrap()).unwrap();
    let (counts, list) = text.split_once('\n').unwrap();
    let numbers = list.split_whitespace().map(|word| word.parse().unwrap());
    let stretches = entries(&numbers.collect::<Vec<u64>>());
    (file("bytes").unwrap(), counts.to_string(), stretches)
}

/// A capture with a list and a buffer of these lengths, and the answer. Past the frames' bytes and the stretches everything stays, and all of it after a refusal.
fn is_captured(name: &str, numbers: usize, length: usize, due: &str) {
    let stream = fs::read(path(&format!("tests/data/vectors/captures/{name}.capture"))).unwrap();
    let (bytes, counts, stretches) = capture(name);
    let (mut out, mut list, mut report) = (vec![165; length], vec![9; numbers], [7; 2]);
    let answer = slices::read_capture(&stream, &mut out, &mut list, &mut report);
    if let Err(refusal) = answer {
        let words = refusal.to_string();
        assert_eq!(words.split(':').next(), Some(due), "{name}");
        assert_eq!(
            (out, list, report),
            (vec![165; length], vec![9; numbers], [7; 2])
        );
        return;
    }
    let [frames, count] = report;
    assert_eq!(format!("frames {frames} stretches {count}"), due, "{name}");
    assert_eq!(counts, due, "{name}");
    let (read, rest) = out.split_at(bytes.len());
    assert!(read == bytes && rest.iter().all(|byte| *byte == 165));
    let (found, rest) = list.split_at(2 * stretches.len());
    assert_eq!(entries(found), stretches, "{name}");
    assert!(rest.iter().all(|number| *number == 9));

    let captured = read_capture(&stream).unwrap();
    assert_eq!((captured.bytes, captured.frames), (bytes, frames), "{name}");
    assert_eq!(in_order(captured.stretches), stretches, "{name}");
}

#[test]
fn captures() {
    let list = fs::read_to_string(path("tests/data/vectors/captures/list.tsv")).unwrap();
    let mut lines = 0;
    for line in list.lines().skip(1).filter(|line| !line.starts_with('#')) {
        let words: Vec<&str> = line.split('\t').collect();
        let [name, entries, length, due] = words[..] else {
            panic!("{line}")
        };
        let entries = 2 * entries.parse::<usize>().unwrap();
        let length = length.parse().unwrap();
        is_captured(name, entries, length, due);
        is_captured(name, entries + 1, length, due); // a number left over is no entry
        lines += 1;
    }
    assert_eq!(lines, 103);
}

fn row_of(digits: &str) -> [u8; ROW] {
    assert_eq!(digits.len(), 2 * ROW);
    std::array::from_fn(|i| u8::from_str_radix(&digits[2 * i..][..2], 16).unwrap())
}

/// Marks at places with commas between them, or `-` for none.
fn marks_of(places: &str) -> [u8; ROW] {
    let mut erasures = [0; ROW];
    for place in places.split(',').filter(|place| *place != "-") {
        erasures[place.parse::<usize>().unwrap()] = 1;
    }
    erasures
}

/// Rows with their marks: row, marked places, what became of it, row after.
#[test]
fn rows() {
    let list = fs::read_to_string(path("tests/data/vectors/rows.txt")).unwrap();
    let mut seen = [0; 3];
    for line in list.lines() {
        let words: Vec<&str> = line.split(' ').collect();
        let [row, places, fate, after] = words[..] else {
            panic!("{line}")
        };
        let mut row = row_of(row);
        let outcome = correct_row(&mut row, &marks_of(places)).unwrap();
        let (due, kind) = match fate {
            "clean" => (Outcome::Clean, 0),
            "changed" => (Outcome::Corrected, 1),
            "past" => (Outcome::Uncorrectable, 2),
            _ => panic!("{line}"),
        };
        assert_eq!((outcome, row), (due, row_of(after)), "{line}");
        seen[kind] += 1;
    }
    assert_eq!(seen, [8, 31, 26]);
}

/// Rows of the light repair: row, `repaired` or `heavier`, row after. What it repairs, the general repair without marks gives too.
#[test]
fn light_rows() {
    let list = fs::read_to_string(path("tests/data/vectors/light.txt")).unwrap();
    let mut seen = [0; 2];
    for line in list.lines() {
        let words: Vec<&str> = line.split(' ').collect();
        let [row, said, after] = words[..] else {
            panic!("{line}")
        };
        let (mut light, mut general) = (row_of(row), row_of(row));
        let outcome = correct_light_row(&mut light);
        let (due, kind) = match said {
            "repaired" => (LightOutcome::Repaired, 0),
            "heavier" => (LightOutcome::Heavier, 1),
            _ => panic!("{line}"),
        };
        assert_eq!((outcome, light), (due, row_of(after)), "{line}");
        correct_row(&mut general, &[0; ROW]).unwrap();
        assert!(
            outcome == LightOutcome::Heavier || general == light,
            "{line}"
        );
        seen[kind] += 1;
    }
    assert_eq!(seen, [15, 25]);
}

/// Closing codes around the point where the choice tips, from every State at both levels.
#[test]
fn closings() {
    let list = fs::read_to_string(path("tests/data/vectors/closing.tsv")).unwrap();
    for line in list.lines().skip(1) {
        let words: Vec<&str> = line.split('\t').collect();
        let number = |i: usize| words[i].parse::<i64>().unwrap();
        let level = |i: usize| number(i).try_into().unwrap();
        let open = Record {
            state: number(1).try_into().unwrap(),
            level: level(2),
            dsv: number(3),
            sectors: 16,
            peak: number(3).unsigned_abs(),
            ..Record::new()
        };
        let mut out = [0; CLOSING];
        let writer = Writer::from_record(open, None).close(&mut out).unwrap();
        let code = u32::from_str_radix(words[6], 16).unwrap();
        assert_eq!(u32::from_be_bytes(out), code, "{line}");
        let closed = Record {
            state: 1,
            level: level(7),
            dsv: number(8),
            closed: true,
            ..open
        };
        assert_eq!(writer.record(), closed, "{line}");
    }
    assert_eq!(list.lines().count(), 28);
}

/// A run of three blocks.
const RUN: [u32; 3] = [0x02_FFE0, 0x02_FFF0, 0x03_0000];
const RUN_INFORMATION: u8 = 0x25;

fn run(name: &str) -> Vec<u8> {
    fs::read(path(&format!("tests/data/vectors/run/{name}"))).unwrap()
}

fn run_mains() -> Vec<[u8; MAIN]> {
    let all = run("run.main");
    all.chunks(MAIN)
        .map(|main| main.try_into().unwrap())
        .collect()
}

/// The run's records after each sector and after closing. None has a mark: the last word of each line is `none`.
fn run_records() -> Vec<Record> {
    let record = |line: &str| {
        let fields = line.strip_prefix("record ").unwrap();
        let fields = fields.strip_suffix(" none").unwrap().split(' ');
        let words: Vec<i64> = fields.map(|word| word.parse().unwrap()).collect();
        Record {
            state: words[0].try_into().unwrap(),
            level: words[1].try_into().unwrap(),
            dsv: words[2],
            sectors: words[3].try_into().unwrap(),
            closed: words[4] == 1,
            peak: words[5].try_into().unwrap(),
            ..Record::new()
        }
    };
    let list = String::from_utf8(run("run.records")).unwrap();
    list.lines().map(record).collect()
}

/// The run block by block: stream, closing code and the record after each call.
#[test]
fn run_by_blocks() {
    let (records, due) = (run_records(), run("run.stream"));
    let mut writer = Writer::new();
    let mut out = buffer(0);
    for (k, (main, first)) in run_mains().iter().zip(RUN).enumerate() {
        writer = writer
            .write_block(main, first, RUN_INFORMATION, &mut out)
            .unwrap();
        assert_eq!(writer.record(), records[16 * k + 15]);
        assert!(
            out[..] == due[BLOCK_STREAM * k..][..BLOCK_STREAM],
            "the stream of block {k}"
        );
    }
    let mut closing = [0; CLOSING];
    writer = writer.close(&mut closing).unwrap();
    assert_eq!(closing, due[3 * BLOCK_STREAM..]);
    assert_eq!(writer.record(), records[48]);
    assert_eq!((due.len(), records.len()), (3 * BLOCK_STREAM + CLOSING, 49));
}

/// The same sector by sector.
#[test]
fn run_by_sectors() {
    let (records, blocks, due) = (run_records(), run("run.blocks"), run("run.stream"));
    let mut writer = Writer::new();
    let mut previous = None;
    for (k, (main, first)) in run_mains().iter().zip(RUN).enumerate() {
        let block = encode_block(main, previous, first, RUN_INFORMATION).unwrap();
        assert!(block[..] == blocks[BLOCK * k..][..BLOCK], "block {k}");
        for (i, sector) in block.chunks(SECTOR).enumerate() {
            let (s, mut out) = (16 * k + i, [0; SECTOR_STREAM]);
            let sector = sector.try_into().unwrap();
            let trial = writer.trial(sector).unwrap();
            assert_eq!(trial.dsv(), records[s].dsv);
            writer = trial.take(sector, &mut out).unwrap();
            assert_eq!(writer.record(), records[s]);
            assert_eq!(out, due[SECTOR_STREAM * s..][..SECTOR_STREAM]);
        }
        previous = Some(first);
    }
}

/// The run's streams block by block: as it was written, with random choices, and damaged. Of the damaged run, blocks 0 and 2 have at most eight heavy rows.
#[test]
fn run_sheets() {
    let mains = run_mains();
    let sheets = String::from_utf8(run("sheets.tsv")).unwrap();
    let mut lines = 0;
    for line in sheets.lines() {
        let words: Vec<&str> = line.split('\t').collect();
        let [name, k, due] = words[..] else {
            panic!("{line}")
        };
        let (stream, k) = (run(name), k.parse::<usize>().unwrap());
        let part = stream[BLOCK_STREAM * k..][..STREAM].try_into().unwrap();
        let got = read_block(part);
        if name != "run.damaged" || k != 1 {
            let read = got.as_ref().unwrap();
            assert!(*read.main == mains[k] && read.first == RUN[k], "{line}");
        }
        let words = got.map_or_else(|refusal| refusal.to_string(), |read| read.to_string());
        assert_eq!(words.split(':').next(), Some(due), "{name} {k}");
        lines += 1;
    }
    assert_eq!(lines, 9);
}
