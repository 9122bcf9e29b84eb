//! The course's pages. How far one byte reaches: its equations, and the bytes that it adds. The light repair, number by number. Its numbers stand in code, as equations, and each part of them is worked out here; its rows are held
//! against the library and the second decoder, its tables against the field.
//!
//! Commas part equations. An equation has parts between the signs = ≠ <, and each sign has to hold between its neighbours. A part has + − · / ² ^ log, brackets,
//! elements as (5E), decimals, α and names: a letter, digits, a stroke. The first equation that begins with a name defines it, to the end of the section; n is 182.
use crate::gf::Field;
use crate::library::{self, HEAVIER, REPAIRED};
use crate::papers::root;
use crate::reach_test;
use crate::report::Report;
use crate::rs::Code;
use std::collections::HashMap;
use Value::{Element, Number};

const ROW: usize = 182;
/// Where digits may stand in prose, besides links.
const PHRASES: [&str; 3] = ["document 02, request 13", "GF(256)", "x² + a·x + b"];

// ---- equations

#[derive(Debug, PartialEq, Clone, Copy)]
enum Value {
    Element(u8),
    Number(i64),
}

#[derive(Debug, PartialEq)]
enum Token {
    Known(Value),
    Name(String),
    Log,
    Sign(char),
}

/// An element at the start of a text, as (5E).
fn element(text: &str) -> Option<u8> {
    let digits = text.strip_prefix('(')?.get(..2)?;
    let is_element = digits.chars().all(|c| "0123456789ABCDEF".contains(c)) && text[3..].starts_with(')');
    is_element.then(|| u8::from_str_radix(digits, 16).unwrap())
}

/// The first token of a text, and how many bytes it has.
fn first_token(text: &str) -> Option<(Token, usize)> {
    let first = text.chars().next()?;
    let digits = |text: &str| text.chars().take_while(char::is_ascii_digit).count();
    if let Some(value) = element(text) {
        Some((Token::Known(Element(value)), 4))
    } else if text.starts_with("log ") {
        Some((Token::Log, 4))
    } else if first.is_ascii_digit() {
        let length = digits(text);
        Some((Token::Known(Number(text[..length].parse().ok()?)), length))
    } else if first.is_ascii_alphabetic() {
        let end = 1 + digits(&text[1..]);
        let length = if text[end..].starts_with('′') { end + '′'.len_utf8() } else { end };
        Some((Token::Name(text[..length].to_string()), length))
    } else if first == 'α' {
        Some((Token::Known(Element(2)), first.len_utf8()))
    } else {
        "+−·/²^()=≠<".contains(first).then(|| (Token::Sign(first), first.len_utf8()))
    }
}

fn tokens(text: &str) -> Option<Vec<Token>> {
    let (mut rest, mut found) = (text.trim(), Vec::new());
    while !rest.is_empty() {
        let (token, length) = first_token(rest)?;
        found.push(token);
        rest = rest[length..].trim_start();
    }
    Some(found)
}

/// Elements with elements and decimals with decimals, but for powers.
fn combined(f: &Field, left: Value, sign: char, right: Value) -> Option<Value> {
    match (left, sign, right) {
        (Element(a), '+', Element(b)) => Some(Element(a ^ b)),
        (Element(a), '·', Element(b)) => Some(Element(f.mul(a, b))),
        (Element(a), '/', Element(b)) if b != 0 => Some(Element(f.mul(a, f.inverse(b)))),
        (Element(a), '^', Number(n)) => Some(Element(f.power(a, u64::try_from(n).ok()?))),
        (Number(a), '+', Number(b)) => a.checked_add(b).map(Number),
        (Number(a), '−', Number(b)) => a.checked_sub(b).map(Number),
        (Number(a), '·', Number(b)) => a.checked_mul(b).map(Number),
        _ => None,
    }
}

fn logarithm(f: &Field, value: Value) -> Option<Value> {
    let Element(x) = value else { return None };
    (0..255).find(|&k| f.alpha(k) == x).map(|k| Number(k as i64))
}

fn is_so(left: Value, sign: char, right: Value) -> Option<bool> {
    match (left, sign, right) {
        (Number(a), '<', Number(b)) => Some(a < b),
        (Element(_), '=' | '≠', Element(_)) | (Number(_), '=' | '≠', Number(_)) => Some((left == right) == (sign == '=')),
        _ => None,
    }
}

struct Parser<'a> {
    field: &'a Field,
    names: &'a HashMap<String, Value>,
    rest: &'a [Token],
}

impl Parser<'_> {
    fn sign(&mut self, among: &str) -> Option<char> {
        let Some((&Token::Sign(sign), rest)) = self.rest.split_first() else { return None };
        among.contains(sign).then(|| self.rest = rest)?;
        Some(sign)
    }

    fn sum(&mut self) -> Option<Value> {
        self.chain("+−", Parser::product)
    }

    fn product(&mut self) -> Option<Value> {
        self.chain("·/", Parser::power)
    }

    /// From left to right.
    fn chain(&mut self, signs: &str, part: fn(&mut Self) -> Option<Value>) -> Option<Value> {
        let mut value = part(self)?;
        while let Some(sign) = self.sign(signs) {
            value = combined(self.field, value, sign, part(self)?)?;
        }
        Some(value)
    }

    fn power(&mut self) -> Option<Value> {
        let base = self.single()?;
        let exponent = match self.sign("²^") {
            None => return Some(base),
            Some('²') => Number(2),
            Some(_) => self.single()?,
        };
        combined(self.field, base, '^', exponent)
    }

    fn single(&mut self) -> Option<Value> {
        if self.sign("(").is_some() {
            let value = self.sum()?;
            return self.sign(")").map(|_| value);
        }
        let (first, rest) = self.rest.split_first()?;
        self.rest = rest;
        match first {
            Token::Known(value) => Some(*value),
            Token::Name(name) => self.names.get(name).copied(),
            Token::Log => logarithm(self.field, self.single()?),
            Token::Sign(_) => None,
        }
    }
}

// ---- the page

/// What stands between two headings: what its equations define, the equations, and its tables, each a name and lines.
struct Section {
    title: String,
    names: HashMap<String, Value>,
    equations: Vec<String>,
    tables: Vec<(String, Vec<String>)>,
}

impl Section {
    fn new(title: &str) -> Section {
        Section {
            title: title.to_string(),
            names: HashMap::from([("n".to_string(), Number(ROW as i64))]),
            equations: Vec::new(),
            tables: Vec::new(),
        }
    }

    /// Whether an equation holds, sign by sign; none where it cannot be read. A new name at its front is defined by what follows.
    fn holds(&mut self, text: &str) -> Option<bool> {
        let (field, tokens) = (Field::new(), tokens(text)?);
        let (new, rest) = match &tokens[..] {
            [Token::Name(name), Token::Sign('='), rest @ ..] if !self.names.contains_key(name) => (Some(name), rest),
            all => (None, all),
        };
        let mut parser = Parser { field: &field, names: &self.names, rest };
        let first = parser.sum()?;
        let (mut last, mut signs, mut all_hold) = (first, usize::from(new.is_some()), true);
        while let Some(sign) = parser.sign("=≠<") {
            // what stands after ≠ begins with a name or is zero: of other numbers nearly any would do
            if sign == '≠' && !matches!(parser.rest.first(), Some(Token::Name(_) | Token::Known(Element(0)))) {
                return None;
            }
            let next = parser.sum()?;
            all_hold &= is_so(last, sign, next)?;
            (last, signs) = (next, signs + 1);
        }
        if signs == 0 || !parser.rest.is_empty() {
            return None;
        }
        new.map(|name| self.names.insert(name.clone(), first));
        Some(all_hold)
    }

    fn equations(&mut self, report: &mut Report, line: &str) {
        for equation in line.split(',').map(str::trim) {
            let holds = self.holds(equation);
            report.check(holds == Some(true), || format!("{}: {equation}: {holds:?}", self.title));
            self.equations.push(equation.to_string());
        }
    }

    /// Outside code there are no digits.
    fn prose(&mut self, report: &mut Report, line: &str) {
        let pieces: Vec<&str> = line.split('`').collect();
        report.check(pieces.len() % 2 == 1, || format!("code without end: {line}"));
        for (i, piece) in pieces.into_iter().enumerate() {
            if i % 2 == 0 {
                let words = without_links(piece);
                let words = PHRASES.iter().fold(words, |words, phrase| words.replace(phrase, ""));
                report.check(!words.contains(char::is_numeric), || format!("a number outside code: {words}"));
            } else {
                self.equations(report, piece);
            }
        }
    }

    /// A block of code: equations, of which an indented line goes on with the one before it, or the table that its first line names.
    fn block(&mut self, report: &mut Report, name: &str, lines: Vec<String>) {
        if name.is_empty() {
            let text = lines.join("\n").replace("\n ", " ");
            text.lines().for_each(|line| self.equations(report, line));
        } else {
            self.tables.push((name.to_string(), lines));
        }
    }

    fn element(&self, name: &str) -> Option<u8> {
        match self.names.get(name) {
            Some(&Element(value)) => Some(value),
            _ => None,
        }
    }

    /// The byte at which the name of a locator's exponent points.
    fn place(&self, exponent: &str) -> Option<usize> {
        match self.names.get(exponent) {
            Some(&Number(k)) => (ROW - 1).checked_sub(usize::try_from(k).ok()?),
            _ => None,
        }
    }

    /// The section's row: bytes that it does not give are 0.
    fn row(&self) -> Vec<u8> {
        (0..ROW).map(|at| self.element(&format!("b{at}")).unwrap_or(0)).collect()
    }

    /// The same with the mended bytes, which have a stroke.
    fn mended(&self) -> Vec<u8> {
        let mended = |(at, byte)| self.element(&format!("b{at}′")).unwrap_or(byte);
        self.row().into_iter().enumerate().map(mended).collect()
    }
}

/// A text without the links in it.
fn without_links(text: &str) -> String {
    let parts = text.split('[').enumerate();
    let after_link = |part: &str| part.split_once("](").and_then(|(_, rest)| rest.split_once(')')).map(|(_, after)| after.to_string());
    parts.map(|(i, part)| after_link(part).filter(|_| i > 0).unwrap_or(part.to_string())).collect()
}

/// The sections, the head of the page first; every equation is checked on the way.
fn sections(report: &mut Report, text: &str) -> Vec<Section> {
    let mut all = vec![Section::new("")];
    let mut block: Option<(&str, Vec<String>)> = None;
    for line in text.lines() {
        if let Some(title) = line.strip_prefix("## ").filter(|_| block.is_none()) {
            all.push(Section::new(title));
        }
        let section = all.last_mut().unwrap();
        block = match (line.strip_prefix("```"), block) {
            (Some(name), None) => Some((name, Vec::new())),
            (Some(_), Some((name, lines))) => {
                section.block(report, name, lines);
                None
            }
            (None, Some((name, mut lines))) => {
                lines.push(line.to_string());
                Some((name, lines))
            }
            (None, None) => {
                section.prose(report, line);
                None
            }
        };
    }
    report.check(block.is_none(), || "a block of code has no end".into());
    all
}

// ---- the examples

/// What a section has to tell: each error by the names of its locator, of the locator's exponent and of its value, or that the row is heavier.
struct Example {
    title: &'static str,
    errors: Option<&'static [[&'static str; 3]]>,
}

const EXAMPLES: [Example; 4] = [
    Example { title: "No wrong byte", errors: Some(&[]) },
    Example { title: "One wrong byte", errors: Some(&[["X", "k", "v"]]) },
    Example { title: "Two wrong bytes", errors: Some(&[["X", "k", "u"], ["Y", "l", "v"]]) },
    Example { title: "Heavier", errors: None },
];

const CRAMER: [&str; 3] = ["d = S1² + S0 · S2", "a = (S1 · S2 + S0 · S3) / d", "b = (S2² + S1 · S3) / d"];

impl Example {
    /// The code's formulas, each of which begins an equation of the section.
    fn formulas(&self, section: &Section) -> Vec<String> {
        let listed = |list: &[&str]| list.iter().map(|formula| formula.to_string()).collect::<Vec<_>>();
        let follows = |i: usize| format!("S{i} = a · S{} + b · S{}", i - 1, i - 2);
        match self.errors {
            Some([]) => Vec::new(),
            Some([_]) => {
                let sums = (2..10).map(|i| format!("S{i} = X · S{}", i - 1));
                listed(&["v = S0", "X = S1 / S0", "k = log X"]).into_iter().chain(sums).collect()
            }
            Some(_) => {
                let values = listed(&["Y = X + a", "v = (S1 + X · S0) / (X + Y)", "u = S0 + v", "k = log X", "l = log Y"]);
                let found = section.place("k").map_or(0, |at| ROW - 1 - at);
                let tried = (0..=found).map(|k| format!("α^{k} · (α^{k} + a)"));
                listed(&CRAMER).into_iter().chain((2..10).map(follows)).chain(tried).chain(values).collect()
            }
            None => listed(&CRAMER),
        }
    }

    /// The row and the mended row, by the library and by the second decoder.
    fn repaired(&self, report: &mut Report, section: &Section) {
        let (code, row, mended) = (Code::light_row(), section.row(), section.mended());
        for (i, sum) in code.syndromes(&row).into_iter().enumerate() {
            report.check(section.element(&format!("S{i}")) == Some(sum), || format!("{}: S{i} is {sum:02X}", self.title));
        }
        let near = self.errors.map(|_| mended.clone());
        report.check(code.nearest(&row) == near, || format!("{}: the second decoder has another row", self.title));
        let mut ours = row;
        let answer = library::correct_light_row(&mut ours);
        let due = if near.is_some() { REPAIRED } else { HEAVIER };
        report.check(answer == due && ours == mended, || format!("{}: the library answers {answer}", self.title));
    }

    /// The places and the errors are those that the page finds; the locator that is nearer to the last byte is found first.
    fn located(&self, report: &mut Report, section: &Section) {
        let (field, row, mended) = (Field::new(), section.row(), section.mended());
        let wrong = (0..ROW).rev().filter(|&at| row[at] != mended[at]).map(|at| (Some(at), Some(row[at] ^ mended[at])));
        let told = self.errors.unwrap_or(&[]).iter().map(|[_, exponent, value]| (section.place(exponent), section.element(value)));
        report.check(wrong.eq(told), || format!("{}: places and errors", self.title));
        for [locator, exponent, _] in self.errors.unwrap_or(&[]) {
            let due = section.place(exponent).map(|at| field.alpha(ROW - 1 - at));
            report.check(due.is_some() && section.element(locator) == due, || format!("{}: the locator {locator}", self.title));
        }
    }

    fn check(&self, report: &mut Report, sections: &[Section]) {
        let Some(section) = sections.iter().find(|section| section.title == self.title) else {
            return report.check(false, || format!("no section {}", self.title));
        };
        self.repaired(report, section);
        self.located(report, section);
        for formula in self.formulas(section) {
            report.check(section.equations.iter().any(|equation| equation.starts_with(&formula)), || format!("{}: no {formula}", self.title));
        }
        if self.errors.is_none() {
            first_misfit(report, section);
        }
    }
}

/// A heavier row's section shows the first sum that does not follow.
fn first_misfit(report: &mut Report, section: &Section) {
    let (f, element) = (Field::new(), |name: &str| section.element(name).unwrap_or(0));
    let sum = |i: usize| element(&format!("S{i}"));
    let misfit = (4..10).find(|&i| sum(i) != f.mul(element("a"), sum(i - 1)) ^ f.mul(element("b"), sum(i - 2)));
    let is_shown = misfit.is_some_and(|i| {
        let (start, end) = (format!("a · S{} + b · S{} = ", i - 1, i - 2), format!(" ≠ S{i} = "));
        section.equations.iter().any(|equation| equation.starts_with(&start) && equation.contains(&end))
    });
    report.check(is_shown, || format!("sum {misfit:?} is the first that does not follow"));
}

// ---- the tables

/// The words of a table's lines: the numbers at the top, then in each line the one at the left and sixteen entries.
fn table(top: Vec<String>, left: impl Fn(usize) -> String, entries: Vec<String>) -> Vec<Vec<String>> {
    let lines = entries.chunks(16).enumerate().map(|(i, line)| [vec![left(i)], line.to_vec()].concat());
    std::iter::once(top).chain(lines).collect()
}

/// α^k for k from 0 to 254, and the logarithms of (00), which has none, to (FF).
fn tables() -> [(&'static str, Vec<Vec<String>>); 2] {
    let f = Field::new();
    let power = |k| format!("{:02X}", f.alpha(k));
    let log = |x: u8| match logarithm(&f, Element(x)) {
        Some(Number(k)) => k.to_string(),
        _ => "-".to_string(),
    };
    let powers = table((0..16).map(|i| i.to_string()).collect(), |i| (16 * i).to_string(), (0..255).map(power).collect());
    let logarithms = table((0..16).map(|i| format!("{i:X}")).collect(), |i| format!("{i:X}"), (0..=255).map(log).collect());
    [("powers", powers), ("logarithms", logarithms)]
}

/// Entry by entry, and no other tables.
fn check_tables(report: &mut Report, sections: &[Section]) {
    let told: Vec<&(String, Vec<String>)> = sections.iter().flat_map(|section| &section.tables).collect();
    report.check(told.len() == 2, || format!("{} tables", told.len()));
    for (name, due) in tables() {
        let lines = told.iter().filter(|table| table.0 == name).flat_map(|table| &table.1);
        let lines: Vec<Vec<&str>> = lines.map(|line| line.split_whitespace().collect()).collect();
        report.check(lines.len() == due.len(), || format!("{name}: {} lines", lines.len()));
        for (line, due) in lines.iter().zip(&due) {
            report.check(line.len() == due.len(), || format!("{name}: {line:?}"));
            line.iter().zip(due).for_each(|(entry, due)| report.check(entry == due, || format!("{name}: {entry} for {due}, line {line:?}")));
        }
    }
}

fn check_page(report: &mut Report, text: &str) {
    let sections = sections(report, text);
    EXAMPLES.iter().for_each(|example| example.check(report, &sections));
    check_tables(report, &sections);
}

fn page(name: &str) -> String {
    std::fs::read_to_string(root().join("docs/course").join(name)).unwrap()
}

pub fn light_repair(report: &mut Report) {
    report.begin("course: light repair by hand");
    check_page(report, &page("light-repair.md"));
    report.end();
}

/// Every equation holds, those of the two figures are there, and the bytes that make the least difference are the tests' own.
pub fn reach(report: &mut Report) {
    report.begin("course: how far one byte reaches");
    let text = page("reach.md");
    let mut section = Section::new("reach");
    let code = text.split('`').filter(|piece| !piece.contains("](") && piece.contains(" = "));
    code.flat_map(str::lines).filter(|line| !line.is_empty()).for_each(|line| section.equations(report, line));
    for (equation, figure) in [("5 + 80 + 180", reach_test::MOST), ("17 · 11", reach_test::LEAST), ("11 · (1 + 16)", reach_test::LEAST)] {
        let due = format!("{equation} = {figure}");
        report.check(section.equations.contains(&due), || format!("no {due}"));
    }
    for line in reach_test::lightest_lines() {
        report.check(text.lines().any(|other| other == line), || format!("no line {line}"));
    }
    report.end();
}
