//! The light repair of a row (document 02, request 13): the library against the rule by the second decoder, against the general repair, and against what distances
//! settle, whatever either decoder thinks. Code rows differ in at least 11 bytes, so a row with three to eight wrong bytes is heavier. That holds too for words of
//! 255 bytes, of which a row is the last 182: places outside the row count as places.
use crate::codes_test::{between_two, Between};
use crate::gf::Field;
use crate::library::{self, HEAVIER, REPAIRED};
use crate::random::Random;
use crate::report::Report;
use crate::rs::Code;

const ROW: usize = 182;
const SUMS: usize = 10;
/// The locators of places outside the row are alpha^k with these k.
const OUTSIDE: std::ops::Range<usize> = ROW..255;

pub fn other_than_0(random: &mut Random) -> u8 {
    1 + random.below(255) as u8
}

/// The library's light repair of a row that comes to this code row, or is heavier. Where it repairs, the general repair gives the same row.
fn leaves(report: &mut Report, row: &[u8], near: Option<&[u8]>) {
    let (due, after) = near.map_or((HEAVIER, row), |near| (REPAIRED, near));
    let mut ours = row.to_vec();
    let answer = library::correct_light_row(&mut ours);
    report.check(answer == due && ours == after, || format!("{row:?}: answer {answer} for {due}"));
    if answer == REPAIRED {
        let mut general = row.to_vec();
        library::correct_row(&mut general, &[0; ROW]);
        report.check(general == ours, || format!("{row:?}: the general repair gives another row"));
    }
}

/// The light repair by both; the code row that the second decoder found.
fn compare(report: &mut Report, code: &Code, row: &[u8]) -> Option<Vec<u8>> {
    let near = code.nearest(row);
    leaves(report, row, near.as_deref());
    near
}

/// By both, and as it is settled beforehand.
fn is_due(report: &mut Report, code: &Code, row: &[u8], due: Option<&[u8]>) {
    let near = compare(report, code, row);
    report.check(near.as_deref() == due, || format!("{row:?}: the second decoder has {near:?} for {due:?}"));
}

// ---- wrong bytes

fn wrong_bytes(report: &mut Report, random: &mut Random, code: &Code, wrong: usize, count: usize) {
    report.begin(&format!("light: rows with {wrong} wrong bytes"));
    for _ in 0..count {
        let right = code.random_code_word(random);
        let mut row = right.clone();
        random.places(ROW, wrong).into_iter().for_each(|at| row[at] ^= other_than_0(random));
        is_due(report, code, &row, (wrong <= 2).then_some(&right));
    }
    report.end();
}

fn random_rows(report: &mut Report, random: &mut Random, code: &Code, count: usize) {
    report.begin("light: random rows");
    for _ in 0..count {
        compare(report, code, &random.bytes(ROW));
    }
    report.end();
}

fn each_place(report: &mut Report, random: &mut Random, code: &Code) {
    report.begin("light: each error at each place");
    for at in 0..ROW {
        let right = code.random_code_word(random);
        let mut row = right.clone();
        for error in 1..=255 {
            row[at] = right[at] ^ error;
            leaves(report, &row, Some(&right));
        }
    }
    report.end();
}

fn each_pair(report: &mut Report, random: &mut Random, code: &Code) {
    report.begin("light: two wrong bytes at each pair of places");
    for first in 0..ROW {
        let right = code.random_code_word(random);
        for second in 0..first {
            let mut row = right.clone();
            [first, second].into_iter().for_each(|at| row[at] ^= other_than_0(random));
            leaves(report, &row, Some(&right));
        }
    }
    report.end();
}

/// Two errors that cancel in one sum: equal ones in the first, and yet the row has two wrong bytes.
fn cancelled_sum(report: &mut Report, random: &mut Random, code: &Code, count: usize) {
    report.begin("light: two wrong bytes and one sum 0");
    let f = &code.field;
    for i in (0..SUMS).cycle().take(SUMS * count) {
        let right = code.random_code_word(random);
        let mut row = right.clone();
        let places = random.places(ROW, 2);
        let [x, y] = [places[0], places[1]].map(|at| f.alpha(ROW - 1 - at));
        let u = other_than_0(random);
        row[places[0]] ^= u;
        row[places[1]] ^= f.mul(u, f.power(f.mul(x, f.inverse(y)), i as u64));
        assert_eq!(code.syndromes(&row)[i], 0);
        is_due(report, code, &row, Some(&right));
    }
    report.end();
}

/// Between two code rows 11 apart.
fn rows_between_two(report: &mut Report, random: &mut Random, code: &Code, count: usize) {
    report.begin("light: rows between two code rows");
    for wrong in (0..=11).cycle().take(12 * count) {
        let Between { right, word, other, .. } = between_two(code, random, 0, wrong);
        let due = match wrong {
            0..=2 => Some(&right),
            3..=8 => None,
            _ => Some(&other),
        };
        is_due(report, code, &word, due.map(Vec::as_slice));
    }
    report.end();
}

// ---- sums that no two wrong bytes of a row give

/// Adds to the sums of a row those of an error at a place outside: to its last ten bytes, the remainder of the error times x^k by the generator.
fn add_outside(code: &Code, row: &mut [u8], k: usize, error: u8) {
    let mut word = vec![0; k - SUMS + 1];
    word[0] = error;
    row[ROW - SUMS..].iter_mut().zip(code.parity(&word)).for_each(|(byte, left)| *byte ^= left);
}

/// One error outside the row, alone, with each place of the row, and with each other place outside.
fn places_outside(report: &mut Report, random: &mut Random, code: &Code, count: usize) {
    report.begin("light: places outside the row");
    let f = &code.field;
    for k in OUTSIDE {
        let mut row = code.random_code_word(random);
        for _ in 0..count {
            let (error, mut alone) = (other_than_0(random), row.clone());
            add_outside(code, &mut alone, k, error);
            let due: Vec<u8> = (0..SUMS).map(|i| f.mul(error, f.alpha(i * k))).collect();
            report.check(code.syndromes(&alone) == due, || format!("the sums of {error} outside at {k}"));
            is_due(report, code, &alone, None);
        }
        add_outside(code, &mut row, k, other_than_0(random));
        for at in 0..ROW {
            let mut with_inside = row.clone();
            with_inside[at] ^= other_than_0(random);
            is_due(report, code, &with_inside, None);
        }
        for other in ROW..k {
            let mut both = row.clone();
            add_outside(code, &mut both, other, other_than_0(random));
            is_due(report, code, &both, None);
        }
    }
    report.end();
}

/// A code row, and to its parity added what gives these sums.
fn row_with(random: &mut Random, code: &Code, sums: &[u8]) -> Vec<u8> {
    let right = code.random_code_word(random);
    let added = code.with_syndromes(sums);
    right.iter().zip(added).map(|(byte, more)| byte ^ more).collect()
}

/// The ten sums from the first two on, where each is a times the one before it and b times the one before that.
fn following(f: &Field, first: u8, second: u8, a: u8, b: u8) -> Vec<u8> {
    let mut sums = vec![first, second];
    for i in 2..SUMS {
        sums.push(f.mul(a, sums[i - 1]) ^ f.mul(b, sums[i - 2]));
    }
    sums
}

/// Sums that follow a polynomial x^2 + ax + b as those of two errors do, but one with a double root, with the root 0 once or twice, or with no root; and the sums
/// of an error whose locator is 0. With at most two errors the polynomial of least degree is the only one, and its roots are their locators.
fn no_two_locators(report: &mut Report, random: &mut Random, code: &Code, count: usize) {
    report.begin("light: sums with no two locators");
    let f = &code.field;
    for x in (1..=255).cycle().take(255 * count) {
        let (first, error) = (random.byte(), other_than_0(random));
        // neither 0 nor x times the first
        let second = (1..=255).cycle().skip(random.below(255)).find(|&s| s != f.mul(x, first)).unwrap();
        let (a, b) = (other_than_0(random), other_than_0(random));
        let mut rows = vec![
            row_with(random, code, &following(f, first, error ^ f.mul(x, first), 0, f.mul(x, x))),
            row_with(random, code, &following(f, first, second, x, 0)),
            row_with(random, code, &following(f, first, error, 0, 0)),
            row_with(random, code, &following(f, error, 0, 0, 0)),
        ];
        if (1..=255).all(|x| f.mul(x, x ^ a) != b) {
            rows.push(row_with(random, code, &following(f, first, error, a, b)));
        }
        rows.iter().for_each(|row| is_due(report, code, row, None));
    }
    report.end();
}

/// The sums of none, one or two errors, but for one of them. Of the nine others at least five follow on, which no other two errors share.
fn one_sum_off(report: &mut Report, random: &mut Random, code: &Code, count: usize) {
    report.begin("light: sums that fit but for one");
    for (wrong, i) in (0..=2).flat_map(|wrong| (0..SUMS).map(move |i| (wrong, i))) {
        for _ in 0..count {
            let mut off = [0; SUMS];
            off[i] = other_than_0(random);
            let mut row = row_with(random, code, &off);
            random.places(ROW, wrong).into_iter().for_each(|at| row[at] ^= other_than_0(random));
            is_due(report, code, &row, None);
        }
    }
    report.end();
}

/// Sums of one or two errors in which one sum does not follow, and those after it do. Up to there they are the sums of some errors, from there on those of others
/// at the same places. The longer part has five sums or more, which no other two errors share, and those that have it do not have the rest.
fn one_step_off(report: &mut Report, random: &mut Random, code: &Code, count: usize) {
    report.begin("light: sums that follow but for one step");
    let f = &code.field;
    for (wrong, m) in (1..=2).flat_map(|wrong| (wrong..SUMS).map(move |m| (wrong, m))) {
        for _ in 0..count {
            let locators: Vec<u8> = random.places(ROW, wrong).iter().map(|&k| f.alpha(k)).collect();
            let (x, y) = (locators[0], locators.get(1).copied().unwrap_or(0));
            let (u, v) = (other_than_0(random), if y == 0 { 0 } else { other_than_0(random) });
            let (a, b) = (x ^ y, f.mul(x, y));
            let mut sums = following(f, u ^ v, f.mul(u, x) ^ f.mul(v, y), a, b);
            let step = following(f, 0, other_than_0(random), a, b);
            sums[m..].iter_mut().zip(&step[1..]).for_each(|(sum, more)| *sum ^= more);
            let row = row_with(random, code, &sums);
            is_due(report, code, &row, None);
        }
    }
    report.end();
}

fn lengths(report: &mut Report, random: &mut Random) {
    report.begin("light: rows of another length");
    for n in [0, 1, 181, 183, 208, 364] {
        for was in [vec![0; n], random.bytes(n)] {
            let mut row = was.clone();
            let answer = library::correct_light_row(&mut row);
            report.check(answer == 1 && row == was, || format!("length {n}: {answer}"));
        }
    }
    report.end();
}

pub fn all(report: &mut Report, random: &mut Random, count: usize) {
    let code = Code::light_row();
    for wrong in 0..=8 {
        wrong_bytes(report, random, &code, wrong, if wrong <= 6 { count } else { count / 10 });
    }
    random_rows(report, random, &code, count / 10);
    each_place(report, random, &code);
    each_pair(report, random, &code);
    cancelled_sum(report, random, &code, 100);
    rows_between_two(report, random, &code, 100);
    places_outside(report, random, &code, 20);
    no_two_locators(report, random, &code, 5);
    one_sum_off(report, random, &code, 100);
    one_step_off(report, random, &code, 100);
    lengths(report, random);
}
