//! The page: the same picture, with what is under the pointer. One file without outside parts.
use std::fmt::Write;

use super::damage::{Byte, Class, Damage};
use super::picture::{CELL, HEIGHT, LEFT, TOP, WIDTH};

const PAGE: &str = include_str!("page.html");

/// What became of a byte: its letter in the page, a capital where it is marked, and the words for it; READ stands for the byte as read. Where the block is refused
/// nobody knows what is right.
fn fate(byte: Byte, is_refused: bool) -> (char, &'static str) {
    match (byte.class, byte.is_marked, is_refused) {
        (Class::Right, false, false) => ('r', "right"),
        (Class::Right, false, true) => ('r', "as read"),
        (Class::Row, false, _) => ('h', "by its row (read as READ)"),
        (Class::Column, false, _) => ('v', "by its column (read as READ)"),
        (Class::Wrong, false, _) => ('w', "wrong still"),
        (Class::Right, true, false) => ('R', "marked (its byte is 0)"),
        (Class::Right, true, true) => ('R', "marked (taken for 0)"),
        (Class::Row, true, false) => ('H', "marked (put right by its row)"),
        (Class::Row, true, true) => ('H', "marked (by its row)"),
        (Class::Column, true, false) => ('V', "marked (put right by its column)"),
        (Class::Column, true, true) => ('V', "marked (by its column)"),
        (Class::Wrong, true, _) => ('W', "marked (wrong still)"),
    }
}

fn fates(damage: &Damage) -> impl Iterator<Item = (char, &'static str)> + '_ {
    let is_refused = damage.refusal.is_some();
    let bytes = damage.bytes.iter().copied();
    bytes.map(move |byte| fate(byte, is_refused))
}

/// The letters that occur, with their words, as the page's script takes them.
fn told(damage: &Damage) -> String {
    let mut fates: Vec<_> = fates(damage).collect();
    fates.sort_unstable();
    fates.dedup();
    let entries: Vec<_> = fates
        .iter()
        .map(|(letter, words)| format!("{letter}: \"{words}\""))
        .collect();
    format!("{{ {} }}", entries.join(", "))
}

/// As text of the page.
fn escaped(text: &str) -> String {
    text.replace('&', "&amp;")
        .replace('<', "&lt;")
        .replace('>', "&gt;")
}

/// A part of each byte in so many hexadecimal digits, one after the other.
fn hexadecimal(damage: &Damage, digits: usize, of: fn(&Byte) -> u16) -> String {
    let mut text = String::with_capacity(digits * damage.bytes.len());
    for byte in &damage.bytes {
        let _ = write!(text, "{:0digits$X}", of(byte));
    }
    text
}

/// The page of a picture that is a PNG.
pub fn page(title: &str, damage: &Damage, picture: &[u8]) -> String {
    let fates: String = fates(damage).map(|(letter, _)| letter).collect();
    let parts = [
        ("width", WIDTH.to_string()),
        ("height", HEIGHT.to_string()),
        ("left", LEFT.to_string()),
        ("top", TOP.to_string()),
        ("cell", CELL.to_string()),
        ("counts", damage.counts()),
        ("sheet", damage.line.clone()),
        ("after", hexadecimal(damage, 2, |byte| byte.after.into())),
        ("read", hexadecimal(damage, 2, |byte| byte.read.into())),
        ("words", hexadecimal(damage, 4, |byte| byte.word)),
        ("fates", fates),
        ("told", told(damage)),
        ("picture", base64::encode(picture)),
        // the name is the user's: it goes last, so that nothing in it is taken for a part
        ("title", escaped(title)),
    ];
    let page = PAGE.to_owned();
    parts.iter().fold(page, |page, (name, part)| {
        page.replace(&format!("{{{name}}}"), part)
    })
}
