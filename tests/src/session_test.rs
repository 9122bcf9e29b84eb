//! Sessions of trials, takes and closings (document 02, request 5), by the second implementation and by the library: the vectors' session, which also has counts,
//! peaks, closing codes and each edge of number 9, and random ones.
use crate::library;
use crate::random::Random;
use crate::report::Report;
use crate::tables::Tables;
use crate::vectors_test::{hash, load, record_line, text};
use crate::writer_test::{closing_refused, compare_closing, odd_record, random_sector};
use crate::writing::{write_sector, Record, LAID, RUN_SECTORS, SECTOR};
use std::collections::{BTreeMap, HashMap};

/// What the second implementation makes of a sector: its stream, and the record after it.
type Laid = (Vec<u8>, Record);

// ---- one call, by both

/// A trial: the DSV or the number, and the record that is kept then.
fn trial(report: &mut Report, kept: &mut Record, bytes: &[u8], to: usize, lay: impl FnOnce(&Record) -> Laid) -> Result<i64, u32> {
    let (before, mut ours, out) = (*kept, *kept, vec![0xA5; to]);
    let due = kept.trial(bytes.len(), to, lay);
    let answer = library::trial(&mut ours, bytes, &out);
    let is_left = out.iter().all(|&b| b == 0xA5);
    report.check(answer == due.err().unwrap_or(0) && ours == *kept && is_left, || {
        format!("trial from {before:?}: {answer}, {ours:?} for {due:?}, {kept:?}")
    });
    due
}

/// A take: the sector's stream or the number.
fn take(report: &mut Report, kept: &mut Record, bytes: &[u8], to: usize, lay: impl FnOnce(&Record) -> Laid) -> Result<Vec<u8>, u32> {
    let (before, mut ours, mut out) = (*kept, *kept, vec![0xA5; to]);
    let due = kept.take(bytes.len(), to, lay);
    let answer = library::take(&mut ours, bytes, &mut out);
    let (number, stream) = (due.as_ref().err().copied().unwrap_or(0), due.clone().unwrap_or(vec![0xA5; to]));
    report.check(answer == number && ours == *kept && out == stream, || {
        format!("take from {before:?}: {answer}, {ours:?} for {number}, {kept:?}")
    });
    due
}

/// Closing: the four bytes or the number.
fn closing(report: &mut Report, t: &Tables, kept: &mut Record, to: usize) -> Result<Vec<u8>, u32> {
    match kept.closing_refusal(to) {
        0 => {
            let (after, closing) = compare_closing(report, t, *kept);
            *kept = after;
            Ok(closing.code)
        }
        due => {
            closing_refused(report, *kept, to, due);
            Err(due)
        }
    }
}

// ---- the vectors' session

/// The bytes that a call names: a sector of the run, a file, or zeros; after a slash, how many of them.
fn data(name: &str) -> Vec<u8> {
    let (source, count) = name.split_once('/').map_or((name, SECTOR), |(source, n)| (source, n.parse().unwrap()));
    let bytes = match source.split_once(':') {
        Some(("run", n)) => load("run/run.blocks")[SECTOR * n.parse::<usize>().unwrap()..][..SECTOR].to_vec(),
        Some(("file", file)) => load(file),
        _ => vec![0; SECTOR],
    };
    bytes[..count].to_vec()
}

/// State, level, DSV, sectors, closed, peak, mark.
fn record(fields: &[&str]) -> Record {
    let n = |i: usize| fields[i].parse::<i64>().unwrap();
    Record { closed: n(4) == 1, peak: n(5) as u64, mark: fields[6].parse().ok(), ..Record::open(n(0) as u8, n(1) as u8, n(2), n(3) as u32) }
}

/// A sector from a record.
fn laid(t: &Tables, bytes: &[u8], from: &Record) -> Laid {
    let mut record = *from;
    (write_sector(t, &mut record, bytes).0, record)
}

/// A call in the words of the vectors: its answer in theirs. What takes and closings write is added to a stream.
fn call(report: &mut Report, t: &Tables, kept: &mut Record, words: &[&str], stream: &mut Vec<u8>) -> String {
    let to = |at: usize, usual: usize| words.get(at).map_or(usual, |n| n.parse().unwrap());
    let bytes = if matches!(words[0], "trial" | "take") { data(words[1]) } else { Vec::new() };
    let lay = |record: &Record| laid(t, &bytes, record);
    let answer = match words[0] {
        "set" => {
            *kept = record(&words[1..]);
            Ok("set".into())
        }
        "trial" => trial(report, kept, &bytes, to(2, LAID), lay).map(|dsv| format!("dsv {dsv}")),
        "take" => take(report, kept, &bytes, to(2, LAID), lay).map(|laid| {
            stream.extend(&laid);
            format!("taken {:016X}", hash(&laid))
        }),
        "close" => closing(report, t, kept, to(1, 4)).map(|code| {
            stream.extend(&code);
            format!("closed {}", code.iter().map(|byte| format!("{byte:02X}")).collect::<String>())
        }),
        other => panic!("{other}"),
    };
    answer.unwrap_or_else(|number| format!("refused {number}"))
}

pub fn vectors(report: &mut Report) {
    report.begin("vectors: a session of calls");
    let (t, session) = (Tables::new(), text("session.txt"));
    let lines: Vec<&str> = session.lines().filter(|line| !line.starts_with('#')).collect();
    let (mut kept, mut stream) = (Record::start(), Vec::new());
    for lines in lines.chunks(3) {
        let [words, answer, left] = [("> ", lines[0]), ("= ", lines[1]), ("= ", lines[2])].map(|(head, line)| line.strip_prefix(head).unwrap());
        let ours = call(report, &t, &mut kept, &words.split(' ').collect::<Vec<_>>(), &mut stream);
        report.check(ours == answer, || format!("{words}: {ours} for {answer}"));
        report.check(record_line(&kept) == left, || format!("{words}: {} for {left}", record_line(&kept)));
    }
    report.check(lines.len() == 3 * 116, || format!("{} lines", lines.len()));
    report.check(stream == load("session.stream"), || "the stream of all takes and closings".into());
    report.end();
}

// ---- random sessions

/// The sectors that sessions draw on, and what the second implementation made of each from a State, a level and a DSV: it is slow, and they come again and again.
struct Sectors<'a> {
    t: &'a Tables,
    bytes: Vec<Vec<u8>>,
    known: HashMap<(usize, u8, u8, i64), Laid>,
}

impl Sectors<'_> {
    fn lay(&mut self, k: usize, from: &Record) -> Laid {
        let Sectors { t, bytes, known } = self;
        let (stream, after) = known.entry((k, from.state, from.level, from.dsv)).or_insert_with(|| {
            let alone = Record { peak: 0, ..Record::open(from.state, from.level, from.dsv, 0) };
            laid(t, &bytes[k], &alone)
        });
        let (sectors, peak) = (from.sectors + 1, from.peak.max(after.peak));
        (stream.clone(), Record { sectors, peak, closed: from.closed, ..*after })
    }
}

/// A record from which a session starts: a run's start, or around the end of a block or of a run.
fn first_record(random: &mut Random) -> Record {
    let sectors = [0, 1, 14, 15, 16, 30, 31, RUN_SECTORS - 2, RUN_SECTORS - 1, RUN_SECTORS][random.below(10)];
    match sectors {
        0 => Record::start(),
        _ => Record::open(1 + random.below(4) as u8, random.below(2) as u8, random.below(9) as i64 - 4, sectors),
    }
}

/// A session as it goes on: the record, and the sector that was tried last.
struct Session<'a, 'b> {
    sectors: &'a mut Sectors<'b>,
    kept: Record,
    tried: usize,
}

impl Session<'_, '_> {
    /// A trial or a take of sector k with this many of its bytes and a buffer of this length: the number.
    fn sector(&mut self, report: &mut Report, is_trial: bool, k: usize, from: usize, to: usize) -> u32 {
        let Session { sectors, kept, .. } = self;
        let mut bytes = sectors.bytes[k].clone();
        bytes.resize(from, 0);
        let lay = |record: &Record| sectors.lay(k, record);
        let answer = match is_trial {
            true => trial(report, kept, &bytes, to, lay).map(drop),
            false => take(report, kept, &bytes, to, lay).map(drop),
        };
        if is_trial {
            self.tried = k;
        }
        answer.err().unwrap_or(0)
    }

    /// Any call: which it was, and its number.
    fn any_call(&mut self, report: &mut Report, random: &mut Random) -> (&'static str, u32) {
        let (other, wrong) = (random.below(self.sectors.bytes.len()), [0, 2][random.below(2)]);
        match random.below(20) {
            0..=5 => ("trial", self.sector(report, true, other, SECTOR, LAID)),
            6..=11 => ("take of what was tried", self.sector(report, false, self.tried, SECTOR, LAID)),
            12..=13 => ("take of another", self.sector(report, false, other, SECTOR, LAID)),
            14 => ("trial", self.sector(report, true, other, SECTOR - 1 + wrong, LAID)),
            15 => ("take of what was tried", self.sector(report, false, self.tried, SECTOR, LAID - 1 + wrong)),
            16..=17 => ("closing", closing(report, self.sectors.t, &mut self.kept, 4).err().unwrap_or(0)),
            18 => ("closing", closing(report, self.sectors.t, &mut self.kept, 3 + wrong).err().unwrap_or(0)),
            _ => {
                self.kept = match random.below(3) {
                    0 => odd_record(random),
                    1 => Record { mark: Some(random.below(9) as i64 - 4), ..self.kept },
                    _ => library::new_record(&self.kept),
                };
                ("put", 0)
            }
        }
    }
}

/// Each call with every number that it can have, in sessions of 4 to 12 calls.
pub fn random_sessions(report: &mut Report, random: &mut Random, t: &Tables, count: usize) {
    report.begin("sessions: random trials, takes and closings");
    let bytes = (0..16).map(|k| if k < 12 { random.bytes(SECTOR) } else { random_sector(random) }).collect();
    let mut sectors = Sectors { t, bytes, known: HashMap::new() };
    let mut seen = BTreeMap::new();
    for _ in 0..count {
        let mut session = Session { sectors: &mut sectors, kept: first_record(random), tried: 0 };
        for _ in 0..4 + random.below(9) {
            *seen.entry(session.any_call(report, random)).or_insert(0) += 1;
        }
    }
    let due = [
        ("trial", &[0, 1, 7, 9][..]),
        ("take of what was tried", &[0, 1, 7, 9, 12, 13]),
        ("take of another", &[0, 7, 9, 12, 13]),
        ("closing", &[0, 1, 7, 8, 9]),
        ("put", &[0]),
    ];
    let due: Vec<_> = due.into_iter().flat_map(|(call, numbers)| numbers.iter().map(move |&n| (call, n))).collect();
    let is_due = due.len() == seen.len() && due.iter().all(|key| seen.contains_key(key));
    report.check(is_due, || format!("numbers seen: {seen:?}"));
    report.end();
}
