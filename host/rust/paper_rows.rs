//! The dictionary's rows and the conformity tables of source document 001, as data for paper_text.rs.
//! Rows are numbered from 0 by rising identifier, digits before letters; docs/ROWS.md says how damaged cells were read.

use Characters::{Alphabetic, Alphanumeric, Numeric};

/// The type column. "A row of any other type takes the alphanumeric characters": only 0C.
#[derive(Clone, Copy, PartialEq, Eq, Debug)]
pub enum Characters {
    Numeric,
    Alphabetic,
    Alphanumeric,
}

impl Characters {
    /// The characters of each type.
    pub fn hold(self, character: u8) -> bool {
        match self {
            Numeric => matches!(character, b'0'..=b'9'),
            Alphabetic => matches!(character, b'A'..=b'Z' | b' '),
            Alphanumeric => matches!(character, 32..=95),
        }
    }
}

/// A row: the lengths of its data, and their type.
#[derive(Clone, Copy, Debug)]
pub struct Row {
    pub identifier: [u8; 2],
    pub least: usize,
    pub greatest: Option<usize>,
    pub characters: Characters,
}

impl Row {
    /// Fixed length: least and greatest are one.
    pub fn is_fixed(&self) -> bool {
        self.greatest == Some(self.least)
    }
}

const NONE: usize = usize::MAX;

const fn row(identifier: &str, least: usize, greatest: usize, characters: Characters) -> Row {
    let name = identifier.as_bytes();
    let greatest = if greatest == NONE { None } else { Some(greatest) };
    Row { identifier: [name[0], name[1]], least, greatest, characters }
}

pub const ROW_COUNT: usize = 110;

pub static ROWS: [Row; ROW_COUNT] = [
    // Section 7.0
    row("01", 0, NONE, Alphanumeric),
    row("02", 0, NONE, Alphanumeric),
    row("03", 0, NONE, Alphanumeric),
    row("04", 0, NONE, Alphanumeric),
    row("05", 0, NONE, Alphanumeric),
    row("06", 4, 4, Alphanumeric),
    row("07", 6, 6, Numeric),
    row("08", 4, 4, Alphanumeric),
    row("09", 4, 4, Numeric),
    row("0A", 9, 9, Numeric),
    row("0B", 9, 9, Numeric),
    row("0C", 0, NONE, Alphanumeric), // printed "Alphanumérique et symboles"
    row("0D", 36, 36, Alphanumeric),
    // Section 7.1
    row("10", 0, 38, Alphanumeric),
    row("11", 0, 38, Alphanumeric),
    row("12", 0, 38, Alphanumeric),
    row("13", 0, 38, Alphanumeric),
    row("14", 0, 38, Alphanumeric),
    row("15", 0, 38, Alphanumeric),
    row("16", 0, 38, Alphanumeric),
    row("17", 0, 38, Alphanumeric),
    row("18", 0, NONE, Alphanumeric),
    row("19", 0, NONE, Alphanumeric),
    row("1A", 0, NONE, Alphanumeric),
    row("1B", 0, NONE, Alphanumeric),
    row("1C", 8, 8, Numeric),
    row("1D", 0, 16, Numeric),
    row("1E", 0, 30, Numeric),
    row("1F", 0, 30, Numeric),
    row("1G", 1, 1, Numeric),
    row("1H", 1, 1, Numeric),
    row("1I", 0, 38, Alphanumeric),
    row("1J", 0, 38, Alphanumeric),
    row("1K", 0, 38, Alphanumeric),
    row("1L", 0, 38, Alphanumeric),
    row("1M", 0, 38, Alphanumeric),
    row("1N", 0, 38, Alphanumeric),
    row("1O", 0, 38, Alphanumeric),
    row("1P", 0, 38, Alphanumeric),
    row("20", 0, 38, Alphanumeric),
    row("21", 0, 38, Alphanumeric),
    row("22", 0, 38, Alphanumeric),
    row("23", 0, 38, Alphanumeric),
    row("24", 5, 5, Numeric),
    row("25", 0, 32, Numeric),
    row("26", 2, 2, Alphanumeric),
    row("27", 0, 38, Alphanumeric),
    row("28", 0, 38, Alphanumeric),
    row("29", 0, 38, Alphanumeric),
    row("2A", 0, 38, Alphanumeric),
    row("2B", 5, 5, Numeric),
    row("2C", 0, 32, Numeric),
    row("2D", 2, 2, Alphanumeric),
    // Section 7.5
    row("60", 0, 60, Alphanumeric),
    row("61", 0, 20, Alphanumeric),
    row("62", 0, 38, Alphanumeric),
    row("63", 0, 38, Alphanumeric),
    row("64", 0, 38, Alphanumeric),
    row("65", 2, 2, Alphanumeric),
    row("66", 0, 20, Alphanumeric),
    row("67", 2, 2, Alphanumeric),
    row("68", 1, 1, Alphanumeric),
    row("69", 8, 8, Numeric),
    row("6A", 0, 32, Alphanumeric),
    row("6B", 3, 3, Alphanumeric),
    row("6C", 2, 2, Alphanumeric),
    row("6D", 0, 60, Alphanumeric),
    row("6E", 0, 60, Alphanumeric),
    row("6F", 0, 90, Alphanumeric),
    row("6G", 0, 38, Alphanumeric),
    row("6H", 0, 10, Alphanumeric),
    row("6I", 2, 2, Alphanumeric),
    row("6J", 1, 1, Numeric),
    row("6K", 19, 19, Numeric),
    row("6L", 8, 8, Alphanumeric),
    row("6M", 0, 40, Alphabetic),
    row("6N", 8, 8, Numeric),
    row("6O", 8, 8, Numeric),
    row("6P", 0, 40, Alphabetic),
    row("6Q", 0, 10, Alphanumeric),
    row("6R", 12, 12, Alphanumeric),
    row("6S", 0, 38, Alphanumeric),
    row("6T", 0, 38, Alphanumeric),
    row("6U", 0, 38, Alphanumeric),
    row("6V", 0, 38, Alphanumeric),
    row("6W", 5, 5, Numeric),
    row("6X", 0, 32, Alphabetic),
    row("6Y", 2, 2, Alphabetic),
    row("6Z", 9, 11, Alphanumeric),
    // Section 7.10
    row("B0", 0, 60, Alphanumeric),
    row("B1", 0, 20, Alphanumeric),
    row("B2", 0, 38, Alphanumeric),
    row("B3", 0, 38, Alphanumeric),
    row("B4", 0, 38, Alphanumeric),
    row("B5", 2, 2, Alphanumeric),
    row("B6", 1, 1, Alphanumeric),
    row("B7", 8, 8, Numeric),
    row("B8", 0, 32, Alphanumeric),
    row("B9", 2, 2, Alphanumeric),
    row("BA", 1, 1, Numeric),
    row("BB", 0, 50, Alphanumeric),
    row("BC", 0, 20, Alphanumeric),
    row("BD", 1, 1, Numeric),
    row("BE", 3, 3, Numeric),
    row("BF", 3, 3, Numeric),
    row("BG", 2, 2, Alphanumeric),
    row("BH", 0, 30, Alphanumeric),
    row("BI", 0, 30, Alphanumeric),
    row("BJ", 0, 30, Alphanumeric),
    row("BK", 14, 14, Alphanumeric),
];

pub fn row_of(identifier: &[u8]) -> Option<usize> {
    ROWS.binary_search_by(|row| row.identifier[..].cmp(identifier)).ok()
}

/// The rows of sections 7.0 and 7.10, which the tables name as optional.
pub const SECTION_7_0: std::ops::Range<usize> = 0..13;
pub const SECTION_7_10: std::ops::Range<usize> = 89..110;

/// A table of section 8: a mark for each type, O, F or -; the sections that it names as optional; and the fields that a
/// footnote makes interchangeable, as the sets of which one whole set is enough.
pub struct Table {
    pub types: &'static [&'static str],
    pub marks: &'static [(&'static str, &'static str)],
    pub optional: &'static [std::ops::Range<usize>],
    pub interchangeable: &'static [(&'static str, &'static [&'static [&'static str]])],
}

/// The types that conformity covers, as the columns of sections 8.1 and 8.7 have them.
pub static TABLES: [Table; 2] = [HOMES, STUDIES];

/// Section 8.1. "La donnée 10 et les données (11, 12, 13) sont interchangeables."
const HOMES: Table = Table {
    types: &["00", "01", "02"],
    marks: &[
        ("10", "OOO"),
        ("11", "OOO"),
        ("12", "OOO"),
        ("13", "OOO"),
        ("14", "-F-"),
        ("15", "-F-"),
        ("16", "-F-"),
        ("17", "-F-"),
        ("18", "-F-"),
        ("19", "-F-"),
        ("1A", "-F-"),
        ("1B", "-F-"),
        ("1C", "-F-"),
        ("1D", "-F-"),
        ("1E", "-F-"),
        ("1F", "-F-"),
        ("1G", "FFF"),
        ("1H", "-F-"),
        ("1I", "FFF"),
        ("1J", "FFF"),
        ("1K", "FFF"),
        ("1L", "FFF"),
        ("1M", "-F-"),
        ("1N", "-F-"),
        ("1O", "-F-"),
        ("1P", "-F-"),
        ("20", "OF-"),
        ("21", "OF-"),
        ("22", "OOO"),
        ("23", "OFF"),
        ("24", "OOO"),
        ("25", "OFO"),
        ("26", "OOO"),
        ("27", "-F-"),
        ("28", "-F-"),
        ("29", "-F-"),
        ("2A", "-F-"),
        ("2B", "-F-"),
        ("2C", "-F-"),
        ("2D", "-F-"),
    ],
    optional: &[SECTION_7_0],
    interchangeable: &[
        ("00", &[&["10"], &["11", "12", "13"]]),
        ("01", &[&["10"], &["11", "12", "13"]]),
        ("02", &[&["10"], &["11", "12", "13"]]),
    ],
};

/// Section 8.7. Footnote 6, at the O of B0 in column B0: "Les données B0 et B1 sont interchangeables."
const STUDIES: Table = Table {
    types: &["B0", "B1"],
    marks: &[
        ("B6", "O-"),
        ("B7", "OO"),
        ("B9", "O-"),
        ("B0", "OO"),
        ("B1", "O-"),
        ("B2", "OO"),
        ("BD", "O-"),
        ("BG", "O-"),
        ("BH", "O-"),
        ("BI", "O-"),
        ("BJ", "O-"),
        ("BB", "FO"),
        ("BK", "-O"),
    ],
    optional: &[SECTION_7_0, SECTION_7_10],
    interchangeable: &[("B0", &[&["B0"], &["B1"]])],
};
