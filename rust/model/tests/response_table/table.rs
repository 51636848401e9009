//! The printed response table: its words, and its form.

use model::{Called, Turn};

/// What a cell says of an I2CCON write with ENSIO 1 and a valid BC: "Each
/// entry names the next turn or the refusal".
#[derive(Clone, Copy, Debug, PartialEq, Eq)]
pub enum Cell {
    /// Accepted, and the turn after it.
    Next(Turn),
    /// Accepted: "SI stays 1 and status 38h".
    Stays,
    /// Refused with this number.
    Refused(u8),
    /// A0h and F8h "are beside the table, and their 32 entries say only that".
    Beside,
    /// "codes that never occur have an entry of their own kind"
    Never,
}

/// Every word that a cell may have.
pub const WORDS: [(&str, Cell); 14] = [
    ("Address", Cell::Next(Turn::Address)),
    ("Send", Cell::Next(Turn::Send)),
    ("Receive", Cell::Next(Turn::Receive)),
    (
        "SlaveReceive/own",
        Cell::Next(Turn::SlaveReceive(Called::Own)),
    ),
    (
        "SlaveReceive/general",
        Cell::Next(Turn::SlaveReceive(Called::General)),
    ),
    ("SlaveSend", Cell::Next(Turn::SlaveSend)),
    ("Stopping", Cell::Next(Turn::Stopping)),
    ("Restarting", Cell::Next(Turn::Restarting)),
    ("Busy", Cell::Next(Turn::Busy)),
    ("stays", Cell::Stays),
    ("refused4", Cell::Refused(4)),
    ("refused5", Cell::Refused(5)),
    ("beside", Cell::Beside),
    ("never", Cell::Never),
];

/// "one table of 512 entries, by status divided by 8 and the four bits STA,
/// STO, AA and MODE, highest first."
#[derive(Clone)]
pub struct Table {
    rows: [[Cell; 16]; 32],
}

/// The 32 status codes, ascending.
pub fn statuses() -> impl Iterator<Item = u8> {
    (0x00..=0xF8).step_by(8)
}

impl Table {
    /// The table as the program prints it.
    pub fn printed() -> Self {
        let text = printed_text();
        Self::parse(&text).unwrap_or_else(|fault| panic!("{fault} in\n{text}"))
    }

    /// Takes a text of exactly the printed form, or says what is wrong in it.
    pub fn parse(text: &str) -> Result<Self, String> {
        let text = text.strip_suffix('\n').ok_or("last line without an end")?;
        let lines: Vec<&str> = text.split('\n').collect();
        let (first, rest) = lines.split_first().ok_or("no line")?;
        if *first != heading() {
            return Err(format!("heading {first:?}"));
        }
        let rest: [&str; 32] = rest
            .try_into()
            .map_err(|_| format!("{} rows", rest.len()))?;
        let mut rows = [[Cell::Never; 16]; 32];
        for ((row, line), status) in rows.iter_mut().zip(rest).zip(statuses()) {
            *row = parse_row(line, status)?;
        }
        Ok(Table { rows })
    }

    /// The entry for a status and the four bits.
    pub fn cell(&self, status: u8, bits: u8) -> Cell {
        assert_eq!(status % 8, 0, "no row for {status:02X}h");
        self.rows[usize::from(status / 8)][usize::from(bits)]
    }

    /// A copy in which one entry is another.
    pub fn with(&self, status: u8, bits: u8, cell: Cell) -> Self {
        let mut copy = self.clone();
        copy.rows[usize::from(status / 8)][usize::from(bits)] = cell;
        copy
    }
}

/// What the program has to print.
pub fn printed_text() -> String {
    let path = concat!(env!("CARGO_MANIFEST_DIR"), "/../../crates/table/stdout");
    std::fs::read_to_string(path).unwrap_or_else(|fault| panic!("{path}: {fault}"))
}

/// `status` and the sixteen bit patterns.
fn heading() -> String {
    (0..16).fold(String::from("status"), |line, bits| {
        format!("{line} {bits:04b}")
    })
}

/// The status in two digits, then sixteen words, each after one space.
fn parse_row(line: &str, status: u8) -> Result<[Cell; 16], String> {
    let mut words = line.split(' ');
    let code = format!("{status:02X}");
    if words.next() != Some(&code) {
        return Err(format!("row {line:?} where {code} belongs"));
    }
    let cells: Vec<Cell> = words.map(parse_cell).collect::<Result<_, _>>()?;
    cells
        .try_into()
        .map_err(|cells: Vec<_>| format!("{} cells at {code}", cells.len()))
}

fn parse_cell(word: &str) -> Result<Cell, String> {
    let known = WORDS.iter().find(|(known, _)| *known == word);
    known
        .map(|&(_, cell)| cell)
        .ok_or_else(|| format!("word {word:?}"))
}

// The form.

#[test]
fn the_printed_table_has_the_form() {
    let text = printed_text();
    assert_eq!(text.lines().count(), 33);
    Table::printed();
}

/// Texts of another form are refused: each differs from the printed one by
/// one change.
#[test]
fn another_form_is_refused() {
    let text = printed_text();
    let lines: Vec<&str> = text.lines().collect();
    let row_08 = lines[2];
    let moved = [&lines[..2], &lines[3..4], &lines[2..3], &lines[4..], &[""]].concat();
    for (other, fault) in [
        (String::new(), "without an end"),
        (text.trim_end().to_string(), "without an end"),
        (format!("{text}\n"), "33 rows"),
        (format!("\n{text}"), "heading"),
        (text.replacen("1111", "1110", 1), "heading"),
        (text.replacen("status", "Status", 1), "heading"),
        (text.replacen(" 0000", "  0000", 1), "heading"),
        (text.replacen(&format!("{row_08}\n"), "", 1), "31 rows"),
        (moved.join("\n"), "where 08 belongs"),
        (text.replacen("\nE8", "\ne8", 1), "where E8 belongs"),
        (text.replacen("\n08", "\n8", 1), "where 08 belongs"),
        (text.replacen("\n08 ", "\n08  ", 1), "word \"\""),
        (text.replacen(row_08, &format!("{row_08} "), 1), "word \"\""),
        (text.replacen('\n', "\r\n", 33), "heading"),
        (text.replacen("\n08 ", "\n08 Busy ", 1), "17 cells at 08"),
        (cut_last_word(&text, row_08), "15 cells at 08"),
        (text.replacen("refused4", "refused3", 1), "word"),
        (text.replacen("stays", "Free", 1), "word"),
        (text.replacen("Busy", "busy", 1), "word"),
    ] {
        let refused = Table::parse(&other).err();
        let refused = refused.unwrap_or_else(|| panic!("taken, for {fault:?}:\n{other}"));
        assert!(refused.contains(fault), "{refused:?} for {fault:?}");
    }
}

/// The text with the row's last word left out.
fn cut_last_word(text: &str, row: &str) -> String {
    let (kept, _) = row.rsplit_once(' ').expect("a row of words");
    text.replacen(row, kept, 1)
}
