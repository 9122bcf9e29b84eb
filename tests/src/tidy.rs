//! The sources against the rules of the house: every name that a file imports is used there, every lemma is cited by another proof or named in docs/PROOFS.md,
//! definitions import nothing from proofs, and no line of a contract has more than 120 characters.
use crate::papers::{files_below, root};
use crate::report::Report;
use std::collections::{HashMap, HashSet};
use std::fs;
use std::path::PathBuf;

struct Source {
    path: PathBuf,
    text: String,
}

/// The files of the crates with this ending, but for must-fail edits and what rt makes in out/.
fn sources(ending: &str) -> Vec<Source> {
    let mut found = Vec::new();
    for entry in fs::read_dir(root().join("crates")).unwrap() {
        for part in ["src", "specs", "proofs"] {
            files_below(&entry.as_ref().unwrap().path().join(part), ending, &mut found);
        }
    }
    found.sort();
    found.into_iter().map(|path| Source { text: fs::read_to_string(&path).unwrap(), path }).collect()
}

/// A line without its comment.
fn without_comment(line: &str) -> &str {
    let start = line.trim_start();
    if start.starts_with("--") || start.starts_with("//") {
        return "";
    }
    let cut = [" -- ", " // "].iter().filter_map(|mark| line.find(mark)).min();
    cut.map_or(line, |at| &line[..at])
}

fn is_import(line: &str) -> bool {
    let line = line.trim_start();
    ["use ", "ghost use ", "pub use "].iter().any(|word| line.starts_with(word))
}

/// The imports of a text, each on one line, and the lines beside them. An import goes on until its braces are closed.
fn imports(text: &str) -> (Vec<String>, Vec<&str>) {
    let (mut imports, mut beside) = (Vec::<String>::new(), Vec::new());
    let mut open = 0;
    for line in text.lines().map(without_comment) {
        if open > 0 {
            imports.last_mut().unwrap().push_str(line.trim());
        } else if is_import(line) {
            imports.push(line.trim().to_string());
        } else {
            beside.push(line);
            continue;
        }
        open += line.matches('{').count();
        open -= line.matches('}').count();
    }
    (imports, beside)
}

/// A letter of a name: names hold letters, digits, hyphens, primes and signs, and end at spaces, brackets, dots, commas and semicolons.
fn is_name_letter(c: char) -> bool {
    !c.is_whitespace() && !"(){}[]⌜⌝.,;:&*!\"`".contains(c)
}

/// The names of a text.
fn names(text: &str) -> impl Iterator<Item = &str> {
    text.split(|c| !is_name_letter(c)).filter(|word| !word.is_empty())
}

/// What an import brings into scope: the names in its braces, or the last word of its path.
fn imported(line: &str) -> Vec<String> {
    let line = line.trim_end_matches(';');
    let local = |item: &str| item.rsplit(" as ").next().unwrap().trim().to_string();
    match line.split_once('{') {
        Some((_, braces)) => braces.trim_end_matches('}').split(',').map(local).filter(|n| !n.is_empty()).collect(),
        None => vec![local(line.rsplit(['.', ':']).next().unwrap())],
    }
}

/// Whether the words of a file hold a name. Of an operator, as `◌+◌`, they hold its signs; the empty list, `[]`, is all sign.
fn holds(words: &HashSet<&str>, body: &str, name: &str) -> bool {
    if name.contains('◌') || !name.contains(is_name_letter) {
        return name.split('◌').filter(|sign| !sign.is_empty()).all(|sign| body.contains(sign));
    }
    words.contains(name)
}

fn imports_are_used(report: &mut Report) {
    report.begin("tidy: imports");
    for source in sources(".antt").iter().chain(&sources(".rt")) {
        let (imports, beside) = imports(&source.text);
        let body = beside.join("\n");
        // in code the brackets of type arguments end a name too, as in `Multiples<16>`
        let split = if source.path.extension().is_some_and(|e| e == "rt") { body.replace(['<', '>'], " ") } else { body.clone() };
        let words: HashSet<&str> = names(&split).collect();
        // what a file hands on is used by others
        for import in imports.iter().filter(|l| !l.starts_with("pub ")) {
            for name in imported(import) {
                report.check(holds(&words, &body, &name), || format!("{} imports {name} and does not use it", source.path.display()));
            }
        }
    }
    report.end();
}

/// The lemma that a line of a proof declares: a name at the start, perhaps after `pub`, before a colon.
fn declared(line: &str) -> Option<&str> {
    let line = line.trim_start();
    let line = line.strip_prefix("unfoldable ").or(line.strip_prefix("abbrev ")).unwrap_or(line);
    let (name, _) = line.strip_prefix("pub ").unwrap_or(line).split_once(" :")?;
    (!name.contains(' ') && !name.is_empty() && name.starts_with(char::is_alphabetic)).then_some(name)
}

/// The lines of a text that do not belong to the lemma declared in line `at`: it goes on until a line that is indented no deeper than its own begins another.
fn outside<'a>(lines: &[&'a str], at: usize, name: &str) -> Vec<&'a str> {
    let depth = |line: &str| line.len() - line.trim_start().len();
    let own = depth(lines[at]);
    let is_next = |line: &&&str| !line.trim().is_empty() && depth(line) <= own && names(line).find(|w| *w != "pub").is_some_and(|w| w != name && w != "unfolding");
    let length = lines[at + 1..].iter().position(|line| is_next(&line)).map_or(lines.len(), |n| at + 1 + n);
    [&lines[..at], &lines[length..]].concat()
}

fn lemmas_are_cited(report: &mut Report) {
    report.begin("tidy: lemmas");
    let map = fs::read_to_string(root().join("docs/PROOFS.md")).unwrap();
    let in_map: HashSet<&str> = map.split('`').skip(1).step_by(2).collect();
    let all = sources(".antt");
    let mut files_with: HashMap<&str, HashSet<usize>> = HashMap::new();
    for (number, source) in all.iter().enumerate() {
        for line in source.text.lines() {
            for word in names(without_comment(line)) {
                files_with.entry(word).or_default().insert(number);
            }
        }
    }
    for (number, source) in all.iter().enumerate() {
        let is_law_file = source.path.parent().unwrap().ends_with("proofs");
        let lines: Vec<&str> = source.text.lines().map(without_comment).collect();
        for (at, line) in lines.iter().enumerate().filter(|_| is_law_file) {
            let Some(name) = declared(line) else { continue };
            let elsewhere = files_with.get(name).is_some_and(|files| files.iter().any(|f| *f != number));
            let here = || outside(&lines, at, name).iter().any(|l| names(l).any(|word| word == name));
            report.check(elsewhere || in_map.contains(name) || here(), || format!("{}: nothing cites {name}", source.path.display()));
        }
    }
    report.end();
}

fn definitions_import_no_proofs(report: &mut Report) {
    report.begin("tidy: definitions import no proofs");
    for source in sources(".antt").iter().filter(|s| s.path.parent().unwrap().ends_with("specs")) {
        let (imports, _) = imports(&source.text);
        // the kit has definitions beside its lemmas: `sets` stands in Rattle.std.proofs
        let from_proofs = imports.iter().find(|l| l.contains("proofs.") && !l.contains("Rattle.std.proofs."));
        report.check(from_proofs.is_none(), || format!("{}: {}", source.path.display(), from_proofs.unwrap()));
    }
    report.end();
}

fn contracts_are_short(report: &mut Report) {
    report.begin("tidy: lines of contracts");
    for source in sources(".rt") {
        let mut is_contract = false;
        for line in source.text.lines() {
            let start = line.trim_start();
            is_contract = (is_contract && line.starts_with(' ')) || start.starts_with("requires ") || start.starts_with("ensures ");
            if is_contract {
                report.check(line.chars().count() <= 120, || format!("{}: {line}", source.path.display()));
            }
        }
    }
    report.end();
}

pub fn all(report: &mut Report) {
    imports_are_used(report);
    lemmas_are_cited(report);
    definitions_import_no_proofs(report);
    contracts_are_short(report);
}
