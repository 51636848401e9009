//! Counts as a table, and what of them is too low.

use std::fmt::Write;

/// One count, and the least that it has to be.
pub struct Cell {
    label: String,
    count: u64,
    least: u64,
}

impl Cell {
    /// Has to be 1 or more.
    pub fn new(label: impl Into<String>, count: u64) -> Self {
        Cell {
            label: label.into(),
            count,
            least: 1,
        }
    }

    /// How many of these counts are 1 or more; all have to be.
    pub fn all(label: &str, counts: &[u64]) -> Self {
        Cell {
            label: format!("{label}, of {}", counts.len()),
            count: counts.iter().filter(|&&count| count > 0).count() as u64,
            least: counts.len() as u64,
        }
    }
}

/// Counts of one sort.
pub struct Section {
    title: &'static str,
    cells: Vec<Cell>,
    /// What cannot occur, said so.
    note: &'static str,
}

impl Section {
    /// These counts, none of them beyond reach.
    pub fn new(title: &'static str, cells: Vec<Cell>) -> Self {
        Section {
            title,
            cells,
            note: "",
        }
    }

    /// With a line that says what cannot occur.
    pub fn noting(self, note: &'static str) -> Self {
        Section { note, ..self }
    }
}

/// Prints the table and what occurred too seldom. Whether nothing did.
pub fn show(sections: &[Section]) -> bool {
    print!("{}", text(sections));
    let missing = missing(sections);
    for thing in &missing {
        println!("never, or not all: {thing}");
    }
    missing.is_empty()
}

/// The widest line.
const WIDTH: usize = 110;
/// Where the cells begin.
const INDENT: usize = 19;

/// The table as text.
fn text(sections: &[Section]) -> String {
    let mut text = String::new();
    for section in sections {
        let mut title = section.title;
        for line in lines(&section.cells) {
            let _ = writeln!(text, "{title:INDENT$}{line}");
            title = "";
        }
        if !section.note.is_empty() {
            let _ = writeln!(text, "{:INDENT$}{}", "", section.note);
        }
    }
    text
}

/// The cells in columns of one width.
fn lines(cells: &[Cell]) -> Vec<String> {
    let label = cells.iter().map(|cell| cell.label.len()).max().unwrap_or(0);
    let count = cells.iter().map(|cell| cell.count.to_string().len());
    let count = count.max().unwrap_or(0);
    let across = (WIDTH - INDENT) / (label + count + 3);
    let line = |cells: &[Cell]| {
        let cells = cells.iter();
        let texts: Vec<String> = cells
            .map(|cell| format!("{:label$} {:count$}", cell.label, cell.count))
            .collect();
        texts.join("  ")
    };
    cells.chunks(across.max(1)).map(line).collect()
}

/// What occurred too seldom, in words.
pub fn missing(sections: &[Section]) -> Vec<String> {
    let mut missing = Vec::new();
    for section in sections {
        let cells = section.cells.iter();
        for cell in cells.filter(|cell| cell.count < cell.least) {
            missing.push(format!("{} {}", section.title, cell.label));
        }
    }
    missing
}
