//! The field and the codes of the library against the second implementation.
use crate::gf::{slow_power, slow_product, Field};
use crate::library;
use crate::random::Random;
use crate::report::Report;
use crate::rs::{distance, Code, Fate};

pub fn field(report: &mut Report, random: &mut Random) {
    let f = Field::new();
    report.begin("field: product of all pairs");
    for a in 0..=255u8 {
        for b in 0..=255u8 {
            let (ours, theirs) = (library::product(a, b), slow_product(a, b));
            report.check(ours == theirs && theirs == f.mul(a, b), || {
                format!("{a} * {b}: {ours} for {theirs}")
            });
        }
    }
    report.end();
    report.begin("field: power");
    let mut compare = |a: u8, n: u64| {
        let (ours, theirs) = (library::power(a, n), slow_power(a, n));
        report.check(ours == theirs && theirs == f.power(a, n), || {
            format!("{a}^{n}: {ours} for {theirs}")
        });
    };
    for a in 0..=255u8 {
        [0, 1, 254, 255, 256, 1 << 63, u64::MAX].into_iter().for_each(|n| compare(a, n));
        // twice round the order of the elements, and each bit alone
        (0..520).for_each(|n| compare(a, n));
        (0..64).for_each(|bit| compare(a, 1 << bit));
    }
    (0..20_000).for_each(|_| compare(random.byte(), random.next()));
    report.end();
}

type Made = fn(&[u8], &mut [u8]) -> u32;

pub fn parities(report: &mut Report, random: &mut Random, count: usize) {
    let made: [(&str, Made, Code); 3] = [
        ("IED", library::ied, Code::new(6, 2, 1)),
        ("row parity", library::row_parity, Code::row()),
        ("column parity", library::column_parity, Code::column()),
    ];
    for (name, call, code) in made {
        report.begin(&format!("codes: {name}"));
        let (n, p) = (code.length - code.roots, code.roots);
        for _ in 0..count {
            let data = random.bytes(n);
            let mut out = random.bytes(p);
            let answer = call(&data, &mut out);
            let right = code.parity(&data);
            report.check(answer == 0 && out == right, || format!("{data:?}"));
        }
        for (a, b) in [(n - 1, p), (n + 1, p), (n, p - 1), (n, p + 1), (0, 0), (n, 0)] {
            let data = random.bytes(a);
            let was = random.bytes(b);
            let mut out = was.clone();
            let answer = call(&data, &mut out);
            report.check(answer == 1 && out == was, || format!("lengths {a} and {b}: {answer}"));
        }
        report.end();
    }
}

// ---- rows and columns without marks

type Repair = fn(&mut [u8]) -> u32;

fn correct_unmarked_row(row: &mut [u8]) -> u32 {
    library::correct_row(row, &[0; 182])
}

struct Side {
    name: &'static str,
    code: Code,
    call: Repair,
}

fn sides() -> [Side; 2] {
    let row = Side {
        name: "rows",
        code: Code::row(),
        call: correct_unmarked_row,
    };
    let column = Side {
        name: "columns",
        code: Code::column(),
        call: library::correct_column,
    };
    [row, column]
}

impl Side {
    /// Both repairs of one word; what the second implementation made of it.
    fn compare(&self, report: &mut Report, word: &[u8]) -> (Fate, Vec<u8>) {
        let mut ours = word.to_vec();
        let answer = (self.call)(&mut ours);
        let mut theirs = word.to_vec();
        let fate = self.code.repair(&mut theirs);
        report.check(answer == library::fate_number(fate) && ours == theirs, || {
            format!("{word:?}: answer {answer} for {fate:?}")
        });
        (fate, theirs)
    }

    /// Code words with some bytes wrong: within the radius the code word itself comes back, whatever either decoder thinks.
    fn with_errors(&self, report: &mut Report, random: &mut Random, errors: usize, count: usize) {
        report.begin(&format!("codes: {} with {errors} errors", self.name));
        for _ in 0..count {
            let right = self.code.random_code_word(random);
            let mut word = right.clone();
            for at in random.places(word.len(), errors) {
                word[at] ^= 1 + random.below(255) as u8;
            }
            let (fate, mended) = self.compare(report, &word);
            if errors <= self.code.radius {
                let due = if errors == 0 { Fate::Unchanged } else { Fate::Changed };
                report.check(fate == due && mended == right, || format!("{word:?}: {fate:?}"));
            }
        }
        report.end();
    }

    fn random_words(&self, report: &mut Report, random: &mut Random, count: usize) {
        report.begin(&format!("codes: random {}", self.name));
        for _ in 0..count {
            self.compare(report, &random.bytes(self.code.length));
        }
        report.end();
    }

    /// One error more than the radius, and yet the radius away from another code word: the word goes to that one.
    fn nearer_another(&self, report: &mut Report, random: &mut Random, count: usize) {
        let radius = self.code.radius;
        report.begin(&format!("codes: {} with {} errors, within {radius} of another", self.name, radius + 1));
        for _ in 0..count {
            let Between { right, word, other, .. } = between_two(&self.code, random, 0, radius + 1);
            assert!(distance(&right, &word) == radius + 1 && distance(&other, &word) == radius);
            let (fate, mended) = self.compare(report, &word);
            report.check(fate == Fate::Changed && mended == other, || format!("{word:?}: {fate:?}"));
        }
        report.end();
    }

    fn lengths(&self, report: &mut Report, random: &mut Random) {
        report.begin(&format!("codes: {} of another length", self.name));
        for n in [0, 1, self.code.length - 1, self.code.length + 1, 400] {
            let was = random.bytes(n);
            let mut word = was.clone();
            let answer = (self.call)(&mut word);
            report.check(answer == 1 && word == was, || format!("length {n}: {answer}"));
        }
        report.end();
    }
}

/// A word between two code words that differ in as few bytes as two can.
pub struct Between {
    pub right: Vec<u8>,
    pub word: Vec<u8>,
    pub other: Vec<u8>,
    pub erasures: Vec<u8>,
}

/// Of the places where the two code words differ, `marked` are marked and hold anything. Of the rest the word differs from the right one in `wrong` and from the
/// other in all but these.
pub fn between_two(code: &Code, random: &mut Random, marked: usize, wrong: usize) -> Between {
    let right = code.random_code_word(random);
    let places = random.places(code.length, code.roots + 1);
    let step = code.lightest(&places, 1 + random.below(255) as u8);
    let other: Vec<u8> = right.iter().zip(&step).map(|(a, b)| a ^ b).collect();
    let (mut word, mut erasures) = (right.clone(), vec![0; code.length]);
    for &at in &places[..wrong] {
        word[at] = other[at];
    }
    for &at in &places[places.len() - marked..] {
        word[at] = [right[at], other[at], random.byte()][random.below(3)];
        erasures[at] = 1;
    }
    Between { right, word, other, erasures }
}

pub fn repairs(report: &mut Report, random: &mut Random, count: usize) {
    for side in sides() {
        for errors in 0..=side.code.radius + 3 {
            side.with_errors(report, random, errors, count);
        }
        side.random_words(report, random, count);
        side.nearer_another(report, random, count);
        side.lengths(report, random);
    }
}

// ---- rows with marks

/// Both repairs of a row with marks; what the second implementation made of it.
pub fn compare_erased(report: &mut Report, code: &Code, row: &[u8], erasures: &[u8]) -> (Fate, Vec<u8>) {
    let (mut ours, mut theirs) = (row.to_vec(), row.to_vec());
    let answer = library::correct_row(&mut ours, erasures);
    let fate = code.repair_erased(&mut theirs, erasures);
    report.check(answer == library::fate_number(fate) && ours == theirs, || {
        format!("{row:?} with marks {erasures:?}: answer {answer} for {fate:?}")
    });
    (fate, theirs)
}

/// A code row, and as it was read: so many wrong bytes, and so many others marked.
struct Marked {
    right: Vec<u8>,
    row: Vec<u8>,
    erasures: Vec<u8>,
}

impl Marked {
    fn random(random: &mut Random, code: &Code, wrong: usize, marked: usize) -> Marked {
        let right = code.random_code_word(random);
        let (mut row, mut erasures) = (right.clone(), vec![0; code.length]);
        let places = random.places(code.length, wrong + marked);
        for &at in &places[..wrong] {
            row[at] ^= 1 + random.below(255) as u8;
        }
        // under the marks each byte right, each wrong, each 0 as the sector reader has it, or each by chance
        let kind = random.below(4);
        for &at in &places[wrong..] {
            let other = row[at] ^ (1 + random.below(255) as u8);
            row[at] = [row[at], other, 0, [row[at], other][random.below(2)]][kind];
            erasures[at] = 1;
        }
        Marked { right, row, erasures }
    }

    /// By distances alone, whatever either decoder thinks: up to 10 the code row comes back. At 11 no row is near enough, since code rows differ in at least 11
    /// bytes, and past ten marks none is. Beyond that the row goes to another or stays; with ten marks there is always one that it goes to.
    fn is_due(&self, code: &Code, wrong: usize, marked: usize, fate: Fate, mended: &[u8]) -> bool {
        match (2 * wrong + marked, fate) {
            (0..=10, Fate::Unchanged) => self.row == self.right && mended == self.right,
            (0..=10, Fate::Changed) => self.row != self.right && mended == self.right,
            (12.., Fate::Changed) => marked <= 10 && mended != self.right && code.is_code(mended),
            (11.., Fate::PastHelp) => marked != 10 && mended == self.row,
            _ => false,
        }
    }
}

/// Every pair of wrong and marked bytes around the edge. Rows without marks are also held to document 01's rule.
fn marked_rows(report: &mut Report, random: &mut Random, count: usize) {
    let code = Code::row();
    for marked in 0..=12 {
        report.begin(&format!("codes: rows with {marked} marks and 0 to 7 other wrong bytes"));
        for i in 0..8 * count {
            let wrong = i % 8;
            let case = Marked::random(random, &code, wrong, marked);
            let (fate, mended) = compare_erased(report, &code, &case.row, &case.erasures);
            report.check(case.is_due(&code, wrong, marked, fate, &mended), || format!("{:?}, {wrong} wrong: {fate:?}", case.row));
            if marked == 0 {
                let mut unmarked = case.row.clone();
                report.check(code.repair(&mut unmarked) == fate && unmarked == mended, || format!("{:?}: {fate:?}", case.row));
            }
        }
        report.end();
    }
}

/// More than ten marks, up to all places: past help, also where it is a code row.
fn rows_past_marks(report: &mut Report, random: &mut Random, count: usize) {
    report.begin("codes: rows with 11 to 182 marks");
    let code = Code::row();
    let mut code_rows = 0;
    for marked in (11..=182).cycle().take(172 * count) {
        let wrong = [0, random.below(6)][random.below(2)].min(182 - marked);
        let case = Marked::random(random, &code, wrong, marked);
        let (fate, mended) = compare_erased(report, &code, &case.row, &case.erasures);
        report.check(fate == Fate::PastHelp && mended == case.row, || format!("{marked} marks: {fate:?}"));
        code_rows += usize::from(case.row == case.right);
    }
    report.check(code_rows > count, || format!("{code_rows} code rows"));
    report.end();
}

/// Between two code rows 11 apart: what 2e + f is from the one and from the other adds up to 22, and the row goes to the one from which it is at most 10, or stays.
fn marked_between_two(report: &mut Report, random: &mut Random, count: usize) {
    report.begin("codes: rows with marks between two code rows");
    let code = Code::row();
    for (marked, wrong) in (0..=10).flat_map(|marked| (0..=11 - marked).map(move |wrong| (marked, wrong))) {
        for _ in 0..count {
            let Between { right, word, other, erasures } = between_two(&code, random, marked, wrong);
            let (fate, mended) = compare_erased(report, &code, &word, &erasures);
            let due = match 2 * wrong + marked {
                0..=10 => &right,
                11 => &word,
                _ => &other,
            };
            report.check(mended == *due, || format!("{word:?}, {wrong} wrong, marks {erasures:?}: {fate:?}"));
        }
    }
    report.end();
}

/// Numbers 1 and 11 in this order, and the row is left: other lengths with any marks, then each mark that is neither 0 nor 1, first, last and anywhere.
fn marks_refused(report: &mut Report, random: &mut Random) {
    report.begin("codes: refused rows and marks");
    let mut refused = |was: &[u8], erasures: &[u8], due: u32| {
        let mut row = was.to_vec();
        let answer = library::correct_row(&mut row, erasures);
        report.check(answer == due && row == was, || format!("{} bytes, marks {erasures:?}: {answer} for {due}", was.len()));
    };
    for (n, m) in [(0, 182), (181, 182), (183, 182), (182, 0), (182, 181), (182, 183), (0, 0), (181, 181), (183, 183), (181, 183), (364, 364)] {
        for mark in [0, 1, 2, 255] {
            refused(&random.bytes(n), &vec![mark; m], 1);
        }
    }
    let code = Code::row();
    for (mark, place) in (2..=255).flat_map(|mark| [Some(0), Some(181), None].map(|place| (mark, place))) {
        let (wrong, marked) = (random.below(7), random.below(13));
        let mut case = Marked::random(random, &code, wrong, marked);
        case.erasures[place.unwrap_or(random.below(182))] = mark;
        refused(&case.row, &case.erasures, 11);
    }
    report.end();
}

pub fn erasures(report: &mut Report, random: &mut Random, count: usize) {
    marked_rows(report, random, count);
    rows_past_marks(report, random, 10);
    marked_between_two(report, random, 100);
    marks_refused(report, random);
}
