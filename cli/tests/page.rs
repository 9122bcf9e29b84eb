//! The page in a browser: headless Chromium, its title and counts, what stands under the pointer, and the picture as it is seen.
mod common;

use chamanzil::ROW;
use common::cells::{Cells, Class};
use common::picture::{Picture, CELL, LEFT, TOP};
use common::streams::block_part;
use common::{ended, in_repository, Folder};
use std::fs;
use std::process::Command;

/// A folder with the map of a vector's block, as a page and as a picture.
struct Mapped {
    folder: Folder,
    cells: Cells,
}

impl Mapped {
    fn new(vector: &str) -> Self {
        let stream = fs::read(in_repository("tests/data/vectors").join(vector)).unwrap();
        let folder = Folder::with(&[("stream", &stream)]);
        let cells = Cells::new(block_part(&stream, 0));
        let status = i32::from(cells.is_refused);
        folder.run("map stream -o map.html").with_status(status);
        folder.run("map stream -o map.png").with_status(status);
        Mapped { folder, cells }
    }

    /// What Chromium makes of the page `name`, with one option more.
    fn browse(&self, option: &str, name: &str) -> String {
        let folder = self.folder.path("").display().to_string();
        let profile = format!("--user-data-dir={folder}profile");
        let page = format!("file://{folder}{name}");
        // root may not use the sandbox; one device pixel is one of the page, in its own colours
        let arguments = [
            "--headless",
            "--no-sandbox",
            "--disable-gpu",
            "--hide-scrollbars",
            "--window-size=1600,1600",
            "--force-device-scale-factor=1",
            "--force-color-profile=srgb",
            "--virtual-time-budget=5000",
            &profile,
            option,
            &page,
        ];
        let mut chromium = self.folder.program("chromium", &arguments);
        let ended = ended(chromium.env("HOME", self.folder.path("")));
        assert_eq!(ended.status, Some(0), "{}", ended.err);
        String::from_utf8(ended.out).unwrap()
    }

    /// The document after a script ran at the end of a copy of the page, once its picture was there.
    fn after_script(&self, script: &str) -> String {
        let page = String::from_utf8(self.folder.read("map.html")).unwrap();
        let script = format!("<script>addEventListener('load', () => {{ {script} }});</script>");
        self.folder
            .write("copy.html", format!("{page}{script}").as_bytes());
        self.browse("--dump-dom", "copy.html")
    }
}

/// Whether there is a Chromium. Where there is none that is said, and it is a failure where CI is set.
fn has_chromium() -> bool {
    let is_there = Command::new("chromium")
        .arg("--version")
        .output()
        .is_ok_and(|o| o.status.success());
    if !is_there {
        println!("skipped: no chromium here (apt-get install chromium)");
        assert!(
            std::env::var_os("CI").is_none(),
            "no chromium, and CI is set"
        );
    }
    is_there
}

/// What stands in an element of a document, which is given by how its tag begins.
#[track_caller]
fn inside(document: &str, tag: &str) -> String {
    let (_, rest) = document
        .split_once(tag)
        .unwrap_or_else(|| panic!("no {tag}: {document}"));
    let (_, rest) = rest.split_once('>').unwrap();
    rest.split('<').next().unwrap().trim().to_string()
}

#[test]
fn title_and_counts() {
    if !has_chromium() {
        return;
    }
    for vector in ["damaged/heavy8.stream", "damaged/heavy9.stream"] {
        let mapped = Mapped::new(vector);
        let document = mapped.browse("--dump-dom", "map.html");
        let sheet = &mapped.cells.sheet;
        assert_eq!(
            inside(&document, "<title"),
            format!("Block 0 of stream: {sheet}")
        );
        assert_eq!(inside(&document, "<p id=\"counts\""), mapped.cells.counts());
        assert_eq!(inside(&document, "<p id=\"sheet\""), *sheet);
    }
}

/// What is said of a marked byte. Where the block is refused nobody knows that it was put right.
fn due_of_marked(cells: &Cells, i: usize) -> &'static str {
    match (cells.classes[i], cells.is_refused) {
        (Class::Column, false) => "put right by its column",
        (Class::Row, false) => "put right by its row",
        (Class::Right, false) => "its byte is 0",
        (Class::Column, true) => "by its column",
        (Class::Row, true) => "by its row",
        (Class::Right, true) => "taken for 0",
        (Class::Wrong, _) => "wrong still",
    }
}

/// What stands under the pointer at a cell.
fn due_under(cells: &Cells, i: usize) -> String {
    let (row, place, byte, word) = (i / ROW, i % ROW, cells.repaired[i], cells.words[i]);
    let read_as = || format!("(read as {:02X})", cells.read_as(i));
    let said = match cells.classes[i] {
        _ if cells.is_marked(i) => format!("marked ({})", due_of_marked(cells, i)),
        Class::Right if cells.is_refused => "as read".to_string(),
        Class::Right => "right".to_string(),
        Class::Row => format!("by its row {}", read_as()),
        Class::Column => format!("by its column {}", read_as()),
        Class::Wrong => "wrong still".to_string(),
    };
    let marks = cells.marks_of(row);
    format!("row {row}, place {place}: byte {byte:02X}, Code Word {word:016b}, {said}; marks of the row: {marks}")
}

/// Moves the pointer over cells, and collects what is said of each.
fn hovered(mapped: &Mapped, cells: &[usize]) -> Vec<String> {
    let places: Vec<String> = cells
        .iter()
        .map(|i| {
            format!(
                "[{}, {}]",
                LEFT + CELL * (i % ROW) + 2,
                TOP + CELL * (i / ROW) + 2
            )
        })
        .collect();
    let script = format!(
        "const picture = document.getElementById('picture'), box = picture.getBoundingClientRect();
         const said = document.createElement('pre');
         said.id = 'said';
         for (const [x, y] of [{}]) {{
           const clientX = box.left + x * box.width / picture.naturalWidth;
           const clientY = box.top + y * box.height / picture.naturalHeight;
           picture.dispatchEvent(new PointerEvent('pointermove', {{ clientX, clientY, bubbles: true }}));
           said.append(document.getElementById('under').textContent + '\\n');
         }}
         document.body.append(said);",
        places.join(", ")
    );
    let document = mapped.after_script(&script);
    inside(&document, "<pre id=\"said\"")
        .lines()
        .map(String::from)
        .collect()
}

/// Some cells of each class, marked and not, the corners, and the cells beside an edge.
fn cells_to_hover(cells: &Cells) -> Vec<usize> {
    let mut chosen = vec![0, ROW - 1, ROW, 207 * ROW, 208 * ROW - 1];
    for (class, is_marked) in Class::ALL
        .map(|class| [(class, true), (class, false)])
        .concat()
    {
        let is_one = |i: &usize| (cells.classes[*i], cells.is_marked(*i)) == (class, is_marked);
        let of_class = (0..cells.classes.len()).filter(is_one);
        chosen.extend(of_class.step_by(37).take(4));
    }
    chosen
}

#[test]
fn what_is_under_the_pointer() {
    if !has_chromium() {
        return;
    }
    for vector in [
        "damaged/heavy8.stream",
        "damaged/light5.stream",
        "damaged/heavy9.stream",
        "damaged/tenunknown.stream",
        "damaged/nine.stream",
    ] {
        let mapped = Mapped::new(vector);
        let cells = cells_to_hover(&mapped.cells);
        let said = hovered(&mapped, &cells);
        assert_eq!(said.len(), cells.len());
        for (i, said) in cells.into_iter().zip(said) {
            assert_eq!(said, due_under(&mapped.cells, i), "{vector}");
        }
    }
}

/// The picture as it is seen has the pixels of the PNG.
#[test]
fn the_page_as_a_picture() {
    if !has_chromium() {
        return;
    }
    let mapped = Mapped::new("damaged/heavy8.stream");
    // Chromium puts a picture at whole pixels
    let place = "const box = document.getElementById('picture').getBoundingClientRect();
                 const said = document.createElement('pre');
                 said.id = 'said';
                 const at = [Math.round(box.left), Math.round(box.top)];
                 said.append([...at, box.width, box.height].join(' '));
                 document.body.append(said);";
    let document = mapped.after_script(place);
    let said = inside(&document, "<pre id=\"said\"");
    let numbers: Vec<usize> = said.split(' ').map(|n| n.parse().unwrap()).collect();
    let (left, top) = (numbers[0], numbers[1]);
    let png = Picture::new(&mapped.folder.read("map.png"));
    let size = [png.width, png.height];
    assert_eq!(numbers[2..], size, "the picture is shown at its own size");

    let shot = mapped.folder.path("shot.png").display().to_string();
    mapped.browse(&format!("--screenshot={shot}"), "map.html");
    let shot = Picture::new(&mapped.folder.read("shot.png"));
    for y in 0..png.height {
        for x in 0..png.width {
            assert_eq!(shot.at(left + x, top + y), png.at(x, y), "at ({x}, {y})");
        }
    }
}
