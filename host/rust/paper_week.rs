//! The week in figures, written from document 02 (K9) alone: the texts of day files counted, and the lines of the program `week`.
//! The tests hold the library and the program against it.

use std::collections::BTreeMap;

use crate::paper::Refusal;
use crate::paper_file::{self, Scan};
use crate::paper_text;

const COUNT_FULL: usize = 38;
const BAD_FILE: usize = 35;

/// What a text is counted under; in the order of the lines.
#[derive(Clone, Copy, Debug, PartialEq, Eq, PartialOrd, Ord)]
pub enum Name {
    Type([u8; 2]),
    Other,
    Refused(usize),
}

pub type Counts = BTreeMap<Name, u32>;

/// "under its type if conformity covers that type, under one count for all other types, or under its refusal number"
pub fn name_of(text: &[u8]) -> Name {
    match paper_text::read_text(text, paper_text::MOST_FIELDS) {
        Err(refusal) => Name::Refused(refusal.number),
        Ok(message) => match &message.header.document_type {
            covered @ (b"00" | b"01" | b"02" | b"B0" | b"B1") => Name::Type(*covered),
            _ => Name::Other,
        },
    }
}

/// The counts with a file, or a refusal's number.
pub fn add(counts: &Counts, file: &[u8]) -> Result<Counts, Refusal> {
    let list = if file.len() > paper_file::MOST_BYTES { None } else { paper_file::list_of(file) };
    let list: Vec<Scan> = list.ok_or(Refusal { number: BAD_FILE, place: 0 })?;
    let mut more = counts.clone();
    for scan in list.iter().filter(|scan| scan.live) {
        let count = more.entry(name_of(&scan.text)).or_insert(0);
        *count = count.checked_add(1).ok_or(Refusal { number: COUNT_FULL, place: 0 })?;
    }
    Ok(more)
}

/// What the program prints for an input.
pub fn printed(input: &[u8]) -> String {
    let mut counts = Counts::new();
    let mut lines = String::new();
    let mut rest = input;
    let mut place = 0;
    let cut = loop {
        if rest.is_empty() {
            break false;
        }
        let Some((&head, behind)) = rest.split_first_chunk::<2>() else { break true };
        let length = usize::from(u16::from_be_bytes(head));
        if length > paper_file::MOST_BYTES || behind.len() < length {
            break true;
        }
        let (file, next) = behind.split_at(length);
        rest = next;
        place += 1;
        match add(&counts, file) {
            Ok(more) => counts = more,
            Err(refusal) => lines.push_str(&format!("file {} refused {}\n", place, refusal.number)),
        }
    };
    for (name, count) in counts.iter().filter(|(_, &count)| count > 0) {
        match name {
            Name::Type(characters) => lines.push_str(&format!("type {} {}\n", String::from_utf8_lossy(characters), count)),
            Name::Other => lines.push_str(&format!("other {}\n", count)),
            Name::Refused(number) => lines.push_str(&format!("refused {} {}\n", number, count)),
        }
    }
    if cut {
        lines.push_str("input cut\n");
    }
    lines
}
