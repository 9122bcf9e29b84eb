//! The papers against the tree: every link leads to a file, and every name in a table stands in the file that its row links. (docs/DEFINITIONS.md is held to the
//! tree by `docs/make --check`.)
use crate::report::Report;
use std::fs;
use std::path::{Path, PathBuf};

pub fn root() -> PathBuf {
    Path::new(env!("CARGO_MANIFEST_DIR")).parent().unwrap().to_path_buf()
}

pub fn files_below(folder: &Path, ending: &str, found: &mut Vec<PathBuf>) {
    let Ok(entries) = fs::read_dir(folder) else { return };
    let mut entries: Vec<PathBuf> = entries.map(|e| e.unwrap().path()).collect();
    entries.sort();
    for path in entries {
        if path.is_dir() {
            files_below(&path, ending, found);
        } else if path.to_string_lossy().ends_with(ending) {
            found.push(path);
        }
    }
}

/// The targets of the relative links in a text.
fn links(text: &str) -> Vec<&str> {
    let parts = text.split("](").skip(1).filter_map(|p| p.split(')').next());
    parts.filter(|l| !l.starts_with("http") && !l.starts_with('#')).collect()
}

/// The file that a link of a paper leads to.
fn target(paper: &Path, link: &str) -> PathBuf {
    paper.parent().unwrap().join(link.split('#').next().unwrap())
}

/// The words in backticks of a row that are names: letters, digits and signs, after any path and before any argument.
fn names(row: &str) -> Vec<&str> {
    let quoted = row.split('`').skip(1).step_by(2);
    let first = quoted.filter_map(|q| q.rsplit("::").next().unwrap().split([' ', '(', ':']).next());
    first.filter(|n| n.len() > 1 && n.chars().all(|c| c.is_alphanumeric() || "-_'≡".contains(c)) && !n.ends_with('_')).collect()
}

fn papers() -> Vec<PathBuf> {
    let mut found = vec![root().join("README.md")];
    files_below(&root().join("docs"), ".md", &mut found);
    found
}

pub fn links_lead(report: &mut Report) {
    report.begin("papers: links");
    for paper in papers() {
        let text = fs::read_to_string(&paper).unwrap();
        for link in links(&text) {
            report.check(target(&paper, link).exists(), || format!("{}: {link}", paper.display()));
        }
    }
    report.end();
}

/// In a row of the map that links files of definitions, code or proofs, each name stands in one of them.
pub fn names_stand(report: &mut Report) {
    report.begin("papers: names in the files that their rows link");
    let paper = root().join("docs/PROOFS.md");
    let text = fs::read_to_string(&paper).unwrap();
    for row in text.lines().filter(|l| l.starts_with('|')) {
        let linked: String = links(row)
            .into_iter()
            .filter(|l| l.ends_with(".antt") || l.ends_with(".rt"))
            .filter_map(|l| fs::read_to_string(target(&paper, l)).ok())
            .collect();
        if linked.is_empty() {
            continue;
        }
        for name in names(row) {
            report.check(linked.contains(name), || format!("{name} is not in a file of its row: {row}"));
        }
    }
    report.end();
}

pub fn all(report: &mut Report) {
    links_lead(report);
    names_stand(report);
}
