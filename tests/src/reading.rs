//! Reading a word, a sector and a block, and the repair, the second implementation (document 01, 'Reading a word, and the repair'; document 02, request 2, for the
//! marks of unknown words).
use crate::block::{edc, ied, recorded, scramble};
use crate::rs::{Code, Fate};
use crate::tables::{sync_numbers, Tables, SYNC_END};
use std::collections::HashMap;

/// Every byte and next State that a word has somewhere in the tables.
pub struct Reader {
    meanings: HashMap<u16, Vec<(u8, u8)>>,
    tables: Tables,
}

#[derive(Default)]
pub struct ReadSector {
    pub bytes: Vec<u8>,
    /// 1 for an unknown word, else 0.
    pub erasures: Vec<u8>,
    pub unknown: u32,
    pub spoiled: u32,
}

/// Rows changed and past help, columns changed and past help, unknown words, spoiled SYNC Codes.
#[derive(Debug, PartialEq, Eq, Clone, Copy, Default)]
pub struct Tallies {
    pub rows: [u32; 2],
    pub columns: [u32; 2],
    pub unknown: u32,
    pub spoiled: u32,
}

#[derive(Debug, PartialEq, Eq, Clone)]
pub enum Answer {
    HandedOut { main: Vec<u8>, first: u32, tallies: Tallies },
    Refused { number: u32, frame: usize },
    LengthRefused,
    /// Number 11, which only the repairer has: the marks that a sector is read to are 0 or 1.
    ErasureRefused,
}

/// What the repairer or the whole-block reader answers, and the block and its marks after it, empty where a length is refused.
pub struct ReadBlock {
    pub answer: Answer,
    pub bytes: Vec<u8>,
    pub erasures: Vec<u8>,
}

impl Reader {
    pub fn new() -> Reader {
        let tables = Tables::new();
        let mut meanings: HashMap<u16, Vec<(u8, u8)>> = HashMap::new();
        for table in [&tables.main, &tables.sub] {
            for (byte, row) in table.iter().enumerate() {
                for e in row {
                    meanings.entry(e.word).or_default().push((byte as u8, e.next));
                }
            }
        }
        Reader { meanings, tables }
    }

    /// The byte that a word stands for before the half word that follows it.
    pub fn word(&self, word: u16, following: u16) -> Option<u8> {
        let both_zero = following & 0x8008 == 0;
        let agrees = |next: u8| match next {
            2 => both_zero,
            3 => !both_zero,
            _ => true,
        };
        let mut found = None;
        for &(byte, next) in self.meanings.get(&word)? {
            if agrees(next) {
                assert!(found.is_none() || found == Some(byte), "{word:04X} stands for two bytes");
                found = Some(byte);
            }
        }
        found
    }

    /// Two half words are one of the four codes of a number.
    fn is_sync(&self, number: usize, first: u16, second: u16) -> bool {
        second == SYNC_END && self.tables.sync.iter().any(|class| class[number].contains(&first))
    }

    /// The closing code of a run: four bytes, a SY0.
    pub fn closing_holds(&self, bytes: &[u8]) -> bool {
        let [a, b, c, d] = *bytes else { return false };
        self.is_sync(0, u16::from_be_bytes([a, b]), u16::from_be_bytes([c, d]))
    }

    /// A sector and the two bytes after it.
    pub fn sector(&self, stream: &[u8]) -> ReadSector {
        assert_eq!(stream.len(), 4_838);
        let half = |i: usize| u16::from_be_bytes([stream[2 * i], stream[2 * i + 1]]);
        let mut read = ReadSector::default();
        for (f, number) in sync_numbers().into_iter().enumerate() {
            let at = 93 * f;
            read.spoiled += u32::from(!self.is_sync(number, half(at), half(at + 1)));
            for i in at + 2..at + 93 {
                let byte = self.word(half(i), half(i + 1));
                read.unknown += u32::from(byte.is_none());
                read.erasures.push(u8::from(byte.is_none()));
                read.bytes.push(byte.unwrap_or(0));
            }
        }
        read
    }

    /// The sixteen sectors of a block's stream, one after the other.
    pub fn sectors(&self, stream: &[u8]) -> ReadSector {
        let mut all = ReadSector::default();
        for s in 0..16 {
            let read = self.sector(&stream[4836 * s..4836 * s + 4838]);
            all.bytes.extend(read.bytes);
            all.erasures.extend(read.erasures);
            all.unknown += read.unknown;
            all.spoiled += read.spoiled;
        }
        all
    }

    /// A whole block's stream: its sectors, then the repairer with their marks.
    pub fn block(&self, stream: &[u8]) -> ReadBlock {
        if stream.len() != 77_380 {
            return ReadBlock { answer: Answer::LengthRefused, bytes: Vec::new(), erasures: Vec::new() };
        }
        let ReadSector { mut bytes, erasures, unknown, spoiled } = self.sectors(stream);
        let mut answer = repair_block(&mut bytes, &erasures);
        if let Answer::HandedOut { tallies, .. } = &mut answer {
            tallies.unknown = unknown;
            tallies.spoiled = spoiled;
        }
        ReadBlock { answer, bytes, erasures }
    }
}

fn tally(counts: &mut [u32; 2], fate: Fate) {
    match fate {
        Fate::Unchanged => {}
        Fate::Changed => counts[0] += 1,
        Fate::PastHelp => counts[1] += 1,
    }
}

/// Rows with their marks, then columns 0 to 171, then the checks of the frames.
pub fn repair_block(buffer: &mut [u8], erasures: &[u8]) -> Answer {
    if erasures.iter().any(|&mark| mark > 1) {
        return Answer::ErasureRefused;
    }
    let mut tallies = Tallies::default();
    let (rows, columns) = (Code::row(), Code::column());
    for (row, marks) in buffer.chunks_mut(182).zip(erasures.chunks(182)) {
        tally(&mut tallies.rows, rows.repair_erased(row, marks));
    }
    for j in 0..172 {
        let place = |i: usize| 182 * recorded(i) + j;
        let mut column: Vec<u8> = (0..208).map(|i| buffer[place(i)]).collect();
        tally(&mut tallies.columns, columns.repair(&mut column));
        column.iter().enumerate().for_each(|(i, &b)| buffer[place(i)] = b);
    }
    checked(buffer, tallies)
}

fn frame_of(buffer: &[u8], k: usize) -> Vec<u8> {
    (12 * k..12 * k + 12)
        .flat_map(|i| buffer[182 * recorded(i)..][..172].to_vec())
        .collect()
}

fn number_of(frame: &[u8]) -> u32 {
    u32::from_be_bytes([0, frame[1], frame[2], frame[3]])
}

fn checked(buffer: &[u8], tallies: Tallies) -> Answer {
    let zero = frame_of(buffer, 0);
    let (first, info) = (number_of(&zero), zero[0]);
    let mut main = Vec::new();
    for k in 0..16 {
        let mut frame = frame_of(buffer, k);
        let number = number_of(&frame);
        let is_led = k > 0 || first % 16 == 0;
        let is_next = number == first + k as u32;
        let refused = |number| Answer::Refused { number, frame: k };
        if ied(&frame[..4]) != frame[4..6] {
            return refused(4);
        }
        if !is_led || !is_next || frame[0] & !0x2D != 0 || frame[0] != info {
            return refused(5);
        }
        scramble(&mut frame, number);
        if edc(&frame[..2060]).to_be_bytes() != frame[2060..] {
            return refused(6);
        }
        main.extend(&frame[12..2060]);
    }
    Answer::HandedOut { main, first, tallies }
}

/// The line of the bench sheet.
pub fn sheet(answer: &Answer) -> String {
    match answer {
        Answer::LengthRefused => "refused 1".to_string(),
        Answer::ErasureRefused => "refused 11".to_string(),
        Answer::Refused { number, frame } => format!("refused {number} frame {frame}"),
        Answer::HandedOut { first, tallies, .. } => {
            let ([rc, rp], [cc, cp]) = (tallies.rows, tallies.columns);
            let (u, s) = (tallies.unknown, tallies.spoiled);
            format!("block {first:06X} rows {rc} {rp} columns {cc} {cp} unknown {u} sync {s}")
        }
    }
}

/// Every zero run between two ONEs is 2 to 10, apart from the thirteen of a SYNC Code at its one place.
pub fn zero_runs_hold(stream: &[u8]) -> bool {
    let mut last: Option<usize> = None;
    for i in 0..8 * stream.len() {
        if stream[i / 8] >> (7 - i % 8) & 1 == 0 {
            continue;
        }
        if let Some(before) = last {
            let zeros = i - before - 1;
            // the ONEs around a SYNC Code's thirteen ZEROs are its bits 13 and 27
            let is_sync = zeros == 13 && before % 1488 == 13;
            if !is_sync && !(2..=10).contains(&zeros) {
                return false;
            }
        }
        last = Some(i);
    }
    true
}
