//! The writer of the library against the second implementation.
use crate::block::{block, MAIN};
use crate::blocks_test::accepted;
use crate::library;
use crate::random::Random;
use crate::report::Report;
use crate::tables::{Tables, SYNC_END};
use crate::writing::{close, write_sector, Closing, FrameTrace, Record, LAID, RUN_SECTORS, SECTOR};
use std::collections::BTreeMap;

/// One sector from a record, by both, tried and taken; what the second implementation did.
pub fn compare_sector(report: &mut Report, t: &Tables, record: Record, bytes: &[u8]) -> (Record, Vec<FrameTrace>) {
    let mut theirs = record;
    let (stream, traces) = write_sector(t, &mut theirs, bytes);
    let (mut ours, mut out) = (record, vec![0xA5; LAID]);
    let answer = library::trial(&mut ours, bytes, &out);
    let marked = Record { mark: Some(theirs.dsv), ..record };
    report.check(answer == 0 && ours == marked && out.iter().all(|&b| b == 0xA5), || format!("trial: {answer}, {ours:?} for {marked:?}"));
    let answer = library::take(&mut ours, bytes, &mut out);
    report.check(answer == 0 && ours == theirs && out == stream, || {
        format!("{record:?}: {answer}, {ours:?} for {theirs:?}")
    });
    (theirs, traces)
}

/// Whole blocks, sixteen sectors and the closing code.
pub fn blocks(report: &mut Report, random: &mut Random, t: &Tables, count: usize) {
    report.begin("writer: random blocks");
    for _ in 0..count {
        let (first, info) = accepted(random);
        let made = block(&random.bytes(MAIN), first, info);
        let mut record = Record::start();
        for sector in made.chunks(SECTOR) {
            record = compare_sector(report, t, record, sector).0;
        }
        compare_closing(report, t, record);
    }
    report.end();
}

/// The closing code after a record, by both; the record then.
pub fn compare_closing(report: &mut Report, t: &Tables, record: Record) -> (Record, Closing) {
    let (mut ours, mut theirs) = (record, record);
    let mut out = [0xA5; 4];
    let answer = library::close(&mut ours, &mut out);
    let closing = close(t, &mut theirs);
    report.check(answer == 0 && ours == theirs && out[..] == closing.code, || {
        format!("closing {record:?}: {answer}, {out:02X?}, {ours:?} for {theirs:?}")
    });
    (theirs, closing)
}

/// Records that a run may be closed from, in every State and at both levels, with the DSVs around the point where the choice of the code tips.
fn records_before_closing() -> Vec<Record> {
    let mut records = Vec::new();
    for state in 1..=4 {
        for level in 0..=1 {
            records.extend((-80..=80).map(|dsv| Record::open(state, level, dsv, 16)));
        }
    }
    records
}

/// The closing code by DSV. Each of SY0's four codes comes up; so do equal absolute DSVs, once from each State and level, and there the code is the Primary.
pub fn closings(report: &mut Report, t: &Tables) {
    report.begin("writer: closing codes by DSV");
    let mut written = BTreeMap::new();
    for record in records_before_closing() {
        let (_, closing) = compare_closing(report, t, record);
        let is_equal = closing.dsvs[0].abs() == closing.dsvs[1].abs();
        *written.entry((closing.code, is_equal)).or_insert(0) += 1;
    }
    for [primary, secondary] in [t.codes(1, 0), t.codes(3, 0)] {
        let times = |first: u16, is_equal| {
            let code = [first.to_be_bytes(), SYNC_END.to_be_bytes()].concat();
            written.get(&(code, is_equal)).copied().unwrap_or(0)
        };
        report.check(times(primary, false) > 0 && times(secondary, false) > 0, || format!("codes of one class: {written:02X?}"));
        report.check(times(primary, true) == 4 && times(secondary, true) == 0, || format!("at equal DSVs: {written:02X?}"));
    }
    report.end();
}

/// A record that a sector may follow: in a run's first block, at its end, or anywhere.
pub fn random_record(random: &mut Random) -> Record {
    let before_end = RUN_SECTORS as usize - 1;
    let sectors = match random.below(3) {
        0 => random.below(16),
        1 => before_end - random.below(40),
        _ => random.below(before_end),
    } as u32;
    let limit = 38_688 * sectors as u64;
    // near zero, at the rule's edge, or anywhere
    let size = match random.below(4) {
        0 => random.below(40) as u64,
        1 => 40 + random.below(60) as u64,
        2 => 100 + random.below(2_000) as u64,
        _ => random.next() % (limit + 1),
    };
    let size = size.min(limit);
    // the peak as low as the DSV lets it be, a little higher, or anywhere
    let peak = match random.below(3) {
        0 => size,
        1 => (size + random.below(100) as u64).min(limit),
        _ => size + random.next() % (limit - size + 1),
    };
    let (state, level) = (1 + random.below(4) as u8, random.below(2) as u8);
    let dsv = if random.coin() { size as i64 } else { -(size as i64) };
    Record { peak, ..Record::open(state, level, dsv, sectors) }
}

/// Bytes that lean to one side of the DSV keep it far out; few different bytes, or all of them.
pub fn random_sector(random: &mut Random) -> Vec<u8> {
    match random.below(3) {
        0 => random.bytes(SECTOR),
        1 => {
            let few = random.bytes(3);
            (0..SECTOR).map(|_| few[random.below(3)]).collect()
        }
        _ => (0..SECTOR).map(|_| 88 + random.below(168) as u8).collect(),
    }
}

/// Sectors from any record.
pub fn sectors(report: &mut Report, random: &mut Random, t: &Tables, count: usize) {
    report.begin("writer: random sectors from random records");
    for _ in 0..count {
        let (record, bytes) = (random_record(random), random_sector(random));
        compare_sector(report, t, record, &bytes);
    }
    report.end();
}

/// A sector that was written: the records before and after it, and its frames.
struct Written {
    before: Record,
    after: Record,
    frames: Vec<FrameTrace>,
}

impl Written {
    /// The sector has a new peak.
    fn is_higher(&self) -> bool {
        self.after.peak > self.before.peak
    }

    /// The DSV after the sector is lower than its peak.
    fn is_lower_at_end(&self) -> bool {
        self.after.dsv.unsigned_abs() < self.after.peak
    }
}

/// Random sectors from random records, until three pass a test: each of these by both.
fn search(report: &mut Report, random: &mut Random, t: &Tables, name: &str, test: impl Fn(&Written) -> bool) {
    report.begin(&format!("writer: {name}"));
    let mut found = 0;
    for _ in 0..100_000 {
        let (before, bytes) = (random_record(random), random_sector(random));
        let mut after = before;
        let (_, frames) = write_sector(t, &mut after, &bytes);
        if test(&Written { before, after, frames }) {
            compare_sector(report, t, before, &bytes);
            found += 1;
        }
        if found == 3 {
            break;
        }
    }
    report.check(found == 3, || "not reached".into());
    report.end();
}

/// The rule at 63 and -64, which random blocks never reach: each edge and each outcome.
pub fn edges(report: &mut Report, random: &mut Random, t: &Tables) {
    let wanted: [(&str, fn(&FrameTrace) -> bool); 7] = [
        ("DSV 63, not tried", |f| f.dsv_kept_and_other[0] == 63 && !f.tried),
        ("DSV -64, not tried", |f| f.dsv_kept_and_other[0] == -64 && !f.tried),
        ("DSV 64, tried", |f| f.dsv_kept_and_other[0] == 64 && f.tried),
        ("DSV -65, tried", |f| f.dsv_kept_and_other[0] == -65 && f.tried),
        ("the other SYNC Code kept, Stream 1", |f| f.changed && f.shown == 1),
        ("the other SYNC Code kept, Stream 2", |f| f.changed && f.shown == 2),
        ("the other SYNC Code tried in vain", |f| f.tried && !f.changed),
    ];
    for (name, test) in wanted {
        search(report, random, t, name, |w| w.frames.iter().any(test));
    }
}

/// Where the peak of a sector comes from, also where a DSV that is not the written stream's is higher.
pub fn peaks_of_sectors(report: &mut Report, random: &mut Random, t: &Tables) {
    let wanted: [(&str, fn(&Written) -> bool); 6] = [
        ("the peak held from before", |w| !w.is_higher() && w.is_lower_at_end()),
        ("the peak at the sector's end", |w| w.is_higher() && !w.is_lower_at_end()),
        ("the peak at the end of another frame", |w| w.is_higher() && w.is_lower_at_end()),
        ("the peak after a change of the SYNC Code", |w| {
            let is_there = |f: &FrameTrace| f.changed && f.dsv_kept_and_other[1].unsigned_abs() == w.after.peak;
            w.is_higher() && w.frames.iter().any(is_there)
        }),
        ("the peak below a DSV before such a change", |w| {
            w.frames.iter().any(|f| f.changed && f.dsv_kept_and_other[0].unsigned_abs() > w.after.peak)
        }),
        ("the peak below a DSV of the stream not shown", |w| {
            w.frames.iter().any(|f| f.dsvs[2 - f.shown].unsigned_abs() > w.after.peak)
        }),
    ];
    for (name, test) in wanted {
        search(report, random, t, name, test);
    }
}

/// Counts of sectors around each number that a refusal looks at.
const COUNTS: [u32; 18] = [
    0, 1, 8, 15, 16, 17, 24, 32, 255, 16_777_199, 16_777_200, 16_777_201, 16_777_208, 16_777_215, 16_777_216, 16_777_217, 16_777_232, u32::MAX,
];

/// DSVs at the limit of a count of sectors, within and beyond it.
fn limits(sectors: u32) -> [i64; 6] {
    let limit = 38_688 * sectors as i64;
    [0, limit, limit + 1, limit + 32, limit + 33, i64::MAX]
}

/// Peaks at the limits of a record's DSV and count, within and beyond them.
fn peaks(dsv: i64, sectors: u32) -> [u64; 9] {
    let (size, limit) = (dsv.unsigned_abs(), 38_688 * sectors as u64);
    let below = |by| size.saturating_sub(by);
    [below(33), below(32), below(1), size, size.saturating_add(1), limit.saturating_sub(1), limit, limit + 1, u64::MAX]
}

/// A record in or out of range.
pub fn odd_record(random: &mut Random) -> Record {
    let sectors = match random.below(3) {
        0 => random.next() as u32 % (RUN_SECTORS + 100),
        _ => COUNTS[random.below(COUNTS.len())],
    };
    let dsv = limits(sectors)[random.below(6)];
    let dsv = if random.coin() { dsv } else { -dsv - random.below(2) as i64 };
    Record {
        state: [1, 2, 3, 4, 0, 5][random.below(6)],
        level: random.below(3) as u8,
        dsv,
        sectors,
        closed: random.coin(),
        peak: peaks(dsv, sectors)[[0, 1, 2, 3, 3, 3, 4, 6, 7][random.below(9)]],
        mark: [None, Some(0), Some(i64::MIN), Some(random.next() as i64)][random.below(4)],
    }
}

/// Every one of the counts with each of its limits, open and closed, in sound States and levels and in others. The peak is the absolute DSV, as far as 9 lets it be.
pub fn records_at_ends() -> Vec<Record> {
    let mut records = Vec::new();
    for sectors in COUNTS {
        for dsv in limits(sectors).into_iter().flat_map(|dsv| [dsv, -dsv]) {
            let peak = dsv.unsigned_abs().min(38_688 * sectors as u64);
            for (state, level) in [(1, 0), (2, 1), (3, 1), (4, 0), (0, 0), (5, 1), (1, 2)] {
                records.extend([false, true].map(|closed| Record { state, level, closed, peak, ..Record::open(1, 0, dsv, sectors) }));
            }
        }
    }
    records
}

/// Records with every peak at the limits that 9 has for it, open and closed.
pub fn records_by_peak() -> Vec<Record> {
    let mut records = Vec::new();
    for sectors in [0, 1, 16, 32, 16_777_200, 16_777_215, 16_777_216] {
        let limit = 38_688 * sectors as i64;
        for dsv in [0, 1, -31, -32, 33, 100, limit - 40, limit, -limit, limit + 32] {
            for peak in peaks(dsv, sectors) {
                records.extend([false, true].map(|closed| Record { closed, peak, ..Record::open(1, 0, dsv, sectors) }));
            }
        }
    }
    records
}

/// Records around every number that a refusal looks at: what is refused is left, and what is not is written alike.
pub fn ends(report: &mut Report, random: &mut Random, t: &Tables) {
    report.begin("writer: records at the ends of a run");
    let bytes = random_sector(random);
    for record in records_at_ends().into_iter().chain(records_by_peak()) {
        end(report, t, record, &bytes);
    }
    report.end();
}

fn end(report: &mut Report, t: &Tables, record: Record, bytes: &[u8]) {
    match record.sector_refusal(SECTOR, LAID) {
        0 => drop(compare_sector(report, t, record, bytes)),
        due => sector_refused(report, record, bytes, LAID, due),
    }
    match record.closing_refusal(4) {
        0 => drop(compare_closing(report, t, record)),
        due => closing_refused(report, record, 4, due),
    }
}

/// A sector that the record or a length refuses, tried and taken: record and buffer are left.
pub fn sector_refused(report: &mut Report, record: Record, bytes: &[u8], to: usize, due: u32) {
    let (mut ours, mut out) = (record, vec![0xA5; to]);
    let answers = [library::trial(&mut ours, bytes, &out), library::take(&mut ours, bytes, &mut out)];
    let is_left = ours == record && out.iter().all(|&b| b == 0xA5);
    report.check(answers == [due; 2] && is_left, || format!("{record:?} {} {to}: {answers:?} for {due}", bytes.len()));
}

/// A refused closing likewise.
pub fn closing_refused(report: &mut Report, record: Record, to: usize, due: u32) {
    let (mut ours, mut out) = (record, vec![0xA5; to]);
    let answer = library::close(&mut ours, &mut out);
    let is_left = ours == record && out.iter().all(|&b| b == 0xA5);
    report.check(answer == due && is_left, || format!("closing {record:?} {to}: {answer} for {due}"));
}

/// Records in and out of range, and lengths: the number, and everything left as it was where there is one; and a new record after each.
pub fn refusals(report: &mut Report, random: &mut Random, t: &Tables, count: usize) {
    report.begin("writer: refusals");
    for _ in 0..count {
        let record = odd_record(random);
        let from = SECTOR - 1 + [1, 0, 1, 2, 1][random.below(5)];
        let bytes = random.bytes(from);
        let to = LAID - 1 + [1, 0, 1, 2, 1][random.below(5)];
        match record.sector_refusal(from, to) {
            0 => drop(compare_sector(report, t, record, &bytes)),
            due => sector_refused(report, record, &bytes, to, due),
        }
        let to = [4, 3, 4, 5, 4][random.below(5)];
        match record.closing_refusal(to) {
            0 => drop(compare_closing(report, t, record)),
            due => closing_refused(report, record, to, due),
        }
        report.check(library::new_record(&record) == Record::start(), || format!("new after {record:?}"));
    }
    report.end();
}
