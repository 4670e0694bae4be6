//! Reading and writing a text, and conformity, written from document 01 alone and made to be read beside it, not to be
//! fast. The tests hold the library against it. Each rule is quoted where it is applied; paper_rows.rs has the rows.

use crate::ddoc::{Field, Header};
use crate::paper::{Refusal, LONGEST_TEXT};
use crate::paper_rows::{row_of, Row, Table, ROWS, ROW_COUNT, TABLES};

/// Sizes: how many fields a message may have.
pub const MOST_FIELDS: usize = 64;

// Numbers that come back.
const TOO_LONG: usize = 5;
const ROOM_TOO_SHORT: usize = 6;
const HEADER_TOO_SHORT: usize = 10;
const NOT_DC: usize = 11;
const WRONG_VERSION: usize = 12;
const HEADER_CHARACTER: usize = 13;
const WRONG_PERIMETER: usize = 14;
const NO_MARK: usize = 15;
const UNKNOWN_IDENTIFIER: usize = 16;
const ZONE_ENDS: usize = 17;
const OUTSIDE_TYPE: usize = 18;
const DATA_TOO_SHORT: usize = 19;
const REPEATED: usize = 20;
const SIGNATURE_LENGTH: usize = 21;
const SIGNATURE_CHARACTER: usize = 22;
const SPARE_BITS: usize = 23;
const ANNEX: usize = 24;
const DATA_TOO_LONG: usize = 25;
const CUT_FIXED: usize = 26;
const TOO_MANY_FIELDS: usize = 27;
const TYPE_NOT_COVERED: usize = 28;
const MISSING: usize = 29;
const NOT_PERMITTED: usize = 30;
const NO_SUCH_RECORD: usize = 31;

/// The text: what ends variable data, and what cuts them short.
const SEPARATOR: u8 = 29;
const CUT_MARK: u8 = 30;
/// The text: what ends the zone.
const END_OF_ZONE: u8 = 31;

#[derive(Clone, Debug, PartialEq, Eq)]
pub struct Message {
    pub header: Header,
    pub fields: Vec<Field>,
    pub signature: Vec<u8>,
    /// Header and zone, up to the mark.
    pub signed_length: usize,
}

fn refuse<T>(number: usize, place: usize) -> Result<T, Refusal> {
    Err(Refusal { number, place })
}

/// The text: how long a header is. Each version has one part more than the one before.
fn header_length(version: [u8; 2]) -> Option<usize> {
    match &version {
        b"02" => Some(22),
        b"03" => Some(24),
        b"04" => Some(26),
        _ => None,
    }
}

/// The order of text reading: 5, 6, the header, 15, the fields, the signature.
pub fn read_text(text: &[u8], room: usize) -> Result<Message, Refusal> {
    read_text_by(&ROWS, text, room)
}

/// The same by any rows, wherever they stand.
pub fn read_text_by(rows: &[Row], text: &[u8], room: usize) -> Result<Message, Refusal> {
    if text.len() > LONGEST_TEXT {
        return refuse(TOO_LONG, LONGEST_TEXT);
    }
    // The lent list has room for all the fields that a message may have.
    if room < MOST_FIELDS {
        return refuse(ROOM_TOO_SHORT, 0);
    }
    let (header, zone_start) = read_header(text)?;
    // 15 has the place behind the text.
    let zone_end = match text[zone_start..].iter().position(|&character| character == END_OF_ZONE) {
        Some(at) => zone_start + at,
        None => return refuse(NO_MARK, text.len()),
    };
    let fields = read_fields(rows, &text[..zone_end], zone_start)?;
    let signature = read_signature(&header, text, zone_end + 1)?;
    Ok(Message { header, fields, signature, signed_length: zone_end })
}

/// 10 for any version, 11, 12, 10 for this one, then the characters; 11 is given at the front,
/// 12 at the version.
fn read_header(text: &[u8]) -> Result<(Header, usize), Refusal> {
    if text.len() < 22 {
        return refuse(HEADER_TOO_SHORT, text.len());
    }
    if text[..2] != *b"DC" {
        return refuse(NOT_DC, 0);
    }
    let version = [text[2], text[3]];
    let length = match header_length(version) {
        Some(length) => length,
        None => return refuse(WRONG_VERSION, 2),
    };
    if text.len() < length {
        return refuse(HEADER_TOO_SHORT, text.len());
    }
    check_header(&text[..length])?;
    let part = |start: usize| [text[start], text[start + 1]];
    let four = |start: usize| [text[start], text[start + 1], text[start + 2], text[start + 3]];
    let header = Header {
        version,
        authority: four(4),
        certificate: four(8),
        issue_day: day(&text[12..16]),
        signing_day: day(&text[16..20]),
        document_type: part(20),
        // Parts that the version lacks are zero.
        perimeter: if length >= 24 { part(22) } else { [0, 0] },
        country: if length >= 26 { part(24) } else { [0, 0] },
    };
    Ok((header, length))
}

/// The header's characters behind the version, in their order. A wrong perimeter, whatever is wrong in it, is 14 at its
/// first place, and comes before a wrong country.
fn check_header(header: &[u8]) -> Result<(), Refusal> {
    for place in 4..header.len() {
        let character = header[place];
        let letter = matches!(character, b'A'..=b'Z');
        let digit = matches!(character, b'0'..=b'9');
        let right = match place {
            // Authority, its first two characters letters, and certificate.
            4 | 5 => letter,
            6..=11 => letter || digit,
            // The two days, in hexadecimal digits with capital letters, and the type.
            12..=19 => digit || matches!(character, b'A'..=b'F'),
            20 | 21 => letter || digit,
            22 | 23 if header[22..24] != *b"01" => return refuse(WRONG_PERIMETER, 22),
            22 | 23 => true,
            // The country.
            _ => letter,
        };
        if !right {
            return refuse(HEADER_CHARACTER, place);
        }
    }
    Ok(())
}

/// Four hex digits, already checked.
fn day(digits: &[u8]) -> u16 {
    digits.iter().fold(0, |sum, digit| 16 * sum + (*digit as char).to_digit(16).unwrap_or(0) as u16)
}

/// The fields one by one: 17 for half an identifier, 16, 20, 27, the data, 19, each with the place of the identifier
/// but for 18.
fn read_fields(rows: &[Row], text: &[u8], zone_start: usize) -> Result<Vec<Field>, Refusal> {
    let mut fields: Vec<Field> = Vec::new();
    let mut place = zone_start;
    while place < text.len() {
        if place + 1 == text.len() {
            return refuse(ZONE_ENDS, place);
        }
        let row = match rows.iter().position(|row| row.identifier == text[place..place + 2]) {
            Some(row) => row,
            None => return refuse(UNKNOWN_IDENTIFIER, place),
        };
        // No identifier twice.
        if fields.iter().any(|field| usize::from(field.row) == row) {
            return refuse(REPEATED, place);
        }
        if fields.len() == MOST_FIELDS {
            return refuse(TOO_MANY_FIELDS, place);
        }
        let start = place + 2;
        let data = read_data(&rows[row], text, start, place)?;
        fields.push(Field { row: row as u16, cut: data.cut, start: start as u32, length: data.length as u32 });
        place = data.behind;
    }
    Ok(fields)
}

struct Data {
    length: usize,
    cut: bool,
    /// Where the next identifier begins.
    behind: usize,
}

/// The data of one field: 18 where the first wrong character stands, 17 where the zone ends first; the text ends with the zone.
fn read_data(row: &Row, text: &[u8], start: usize, identifier: usize) -> Result<Data, Refusal> {
    let mut place = start;
    loop {
        let length = place - start;
        if Some(length) == row.greatest {
            // Full data end by themselves. Of variable data that are full a 30 still says that they were cut; fixed data
            // have no mark at all.
            let cut = !row.is_fixed() && text.get(place) == Some(&CUT_MARK);
            return Ok(Data { length, cut, behind: if cut { place + 1 } else { place } });
        }
        let character = match text.get(place) {
            Some(&character) => character,
            None => return refuse(ZONE_ENDS, identifier),
        };
        // No mark can stand in fixed data.
        if !row.is_fixed() && (character == SEPARATOR || character == CUT_MARK) {
            // Cut data may be too short as well.
            if length < row.least {
                return refuse(DATA_TOO_SHORT, identifier);
            }
            return Ok(Data { length, cut: character == CUT_MARK, behind: place + 1 });
        }
        if !row.characters.hold(character) {
            return refuse(OUTSIDE_TYPE, place);
        }
        place += 1;
    }
}

/// The alphabet of RFC 4648.
const BASE32: &[u8; 32] = b"ABCDEFGHIJKLMNOPQRSTUVWXYZ234567";

/// The lengths of a signature, in bytes and in characters.
const SIGNATURES: [(usize, usize); 3] = [(64, 103), (96, 154), (132, 212)];

/// The signature: its characters one by one, then its length, then its spare bits, the last two with the place behind the mark.
fn read_signature(header: &Header, text: &[u8], start: usize) -> Result<Vec<u8>, Refusal> {
    let mut bytes = Vec::new();
    let mut bits = Bits { value: 0, count: 0 };
    for (at, &character) in text.iter().enumerate().skip(start) {
        // Of a 29 in version 04.
        if header.version == *b"04" && character == SEPARATOR {
            return refuse(ANNEX, at);
        }
        match character {
            b'A'..=b'Z' => bits.add(5, character - b'A'),
            b'2'..=b'7' => bits.add(5, character - b'2' + 26),
            _ => return refuse(SIGNATURE_CHARACTER, at),
        }
        bytes.extend(bits.take(8));
    }
    let length = text.len() - start;
    if !SIGNATURES.contains(&(bytes.len(), length)) {
        return refuse(SIGNATURE_LENGTH, start);
    }
    // The last character has bits that fill no byte: they are zero.
    if bits.value != 0 {
        return refuse(SPARE_BITS, start);
    }
    Ok(bytes)
}

/// Bits on their way from one grouping to the other, the first one highest.
struct Bits {
    value: u32,
    count: u32,
}

impl Bits {
    fn add(&mut self, count: u32, value: u8) {
        self.value = self.value << count | u32::from(value);
        self.count += count;
    }

    /// The first `count` bits, if there are so many.
    fn take(&mut self, count: u32) -> Option<u8> {
        if self.count < count {
            return None;
        }
        self.count -= count;
        let taken = self.value >> self.count;
        self.value -= taken << self.count;
        Some(taken as u8)
    }
}

/// The order of text writing: 27, the header, the records, 21, 5, 6.
pub fn write_text(
    header: &Header,
    fields: &[Field],
    data: &[u8],
    signature: &[u8],
    room: usize,
) -> Result<Vec<u8>, Refusal> {
    if fields.len() > MOST_FIELDS {
        return refuse(TOO_MANY_FIELDS, MOST_FIELDS);
    }
    let mut text = written_header(header)?;
    check_header(&text)?;
    for (index, field) in fields.iter().enumerate() {
        check_record(&fields[..index], field, data)?;
        write_field(field, data, &mut text);
    }
    text.push(END_OF_ZONE);
    if !SIGNATURES.iter().any(|(bytes, _)| *bytes == signature.len()) {
        return refuse(SIGNATURE_LENGTH, 0);
    }
    write_signature(signature, &mut text);
    if text.len() > LONGEST_TEXT {
        return refuse(TOO_LONG, LONGEST_TEXT);
    }
    if room < text.len() {
        return refuse(ROOM_TOO_SHORT, 0);
    }
    Ok(text)
}

/// The header from its parts; those that the version lacks are never looked at.
fn written_header(header: &Header) -> Result<Vec<u8>, Refusal> {
    let length = match header_length(header.version) {
        Some(length) => length,
        None => return refuse(WRONG_VERSION, 2),
    };
    let days = format!("{:04X}{:04X}", header.issue_day, header.signing_day);
    let mut text = [
        &b"DC"[..],
        &header.version,
        &header.authority,
        &header.certificate,
        days.as_bytes(),
        &header.document_type,
        &header.perimeter,
        &header.country,
    ]
    .concat();
    text.truncate(length);
    Ok(text)
}

/// A record's checks in their order, with its index as the place.
fn check_record(before: &[Field], field: &Field, data: &[u8]) -> Result<(), Refusal> {
    let index = before.len();
    // 31: no such row, or data that leave the slice.
    let end = u64::from(field.start) + u64::from(field.length);
    let row = match ROWS.get(usize::from(field.row)) {
        Some(row) if end <= data.len() as u64 => row,
        _ => return refuse(NO_SUCH_RECORD, index),
    };
    if before.iter().any(|other| other.row == field.row) {
        return refuse(REPEATED, index);
    }
    // 26: fixed data that are said to be cut.
    if field.cut && row.is_fixed() {
        return refuse(CUT_FIXED, index);
    }
    let data = data_of(field, data);
    if row.greatest.map_or(false, |greatest| data.len() > greatest) {
        return refuse(DATA_TOO_LONG, index);
    }
    if !data.iter().all(|&character| row.characters.hold(character)) {
        return refuse(OUTSIDE_TYPE, index);
    }
    if data.len() < row.least {
        return refuse(DATA_TOO_SHORT, index);
    }
    Ok(())
}

fn data_of<'a>(field: &Field, data: &'a [u8]) -> &'a [u8] {
    &data[field.start as usize..][..field.length as usize]
}

/// A field as it is written. Data of greatest length have a mark only when cut.
fn write_field(field: &Field, data: &[u8], text: &mut Vec<u8>) {
    let row = &ROWS[usize::from(field.row)];
    let data = data_of(field, data);
    text.extend(row.identifier);
    text.extend(data);
    if field.cut {
        text.push(CUT_MARK);
    } else if row.greatest != Some(data.len()) {
        text.push(SEPARATOR);
    }
}

/// Five bits a character; bits of zero fill the last one.
pub fn write_signature(signature: &[u8], text: &mut Vec<u8>) {
    let mut bits = Bits { value: 0, count: 0 };
    let letter = |value: u8| BASE32[usize::from(value)];
    for &byte in signature {
        bits.add(8, byte);
        while let Some(value) = bits.take(5) {
            text.push(letter(value));
        }
    }
    if bits.count > 0 {
        bits.add(5 - bits.count, 0);
        text.extend(bits.take(5).map(letter));
    }
}

/// The order of conformity: 28, 29 with the least row, 30 with the first field.
pub fn conformity(document_type: [u8; 2], fields: &[Field]) -> Result<(), Refusal> {
    let covered = |table: &&Table| table.types.iter().any(|known| known.as_bytes() == document_type);
    let table = match TABLES.iter().find(covered) {
        Some(table) => table,
        None => return refuse(TYPE_NOT_COVERED, 0),
    };
    let present = |row: usize| fields.iter().any(|field| usize::from(field.row) == row);
    // Every mandatory row is there.
    if let Some(row) = (0..ROW_COUNT).find(|&row| is_missing(table, document_type, row, &present)) {
        return refuse(MISSING, row);
    }
    match fields.iter().position(|field| !permitted(table, document_type, usize::from(field.row))) {
        Some(index) => refuse(NOT_PERMITTED, index),
        None => Ok(()),
    }
}

/// The mark of a row in the type's column; none if the row is not in the table.
fn mark(table: &Table, document_type: [u8; 2], row: usize) -> Option<u8> {
    let column = table.types.iter().position(|known| known.as_bytes() == document_type)?;
    let (_, marks) = table.marks.iter().find(|(identifier, _)| names(identifier, row))?;
    Some(marks.as_bytes()[column])
}

fn names(identifier: &str, row: usize) -> bool {
    ROWS.get(row).map_or(false, |known| known.identifier == identifier.as_bytes())
}

/// Whether the row is missing: marked O and not present, and no footnote lets another set of fields stand for it.
/// A footnote exchanges rows for others: either side will do, and if both are lacking 29 names the least
/// row. Section 8.1 exchanges 10 for 11, 12 and 13 together: a set counts only as a whole.
fn is_missing(table: &Table, document_type: [u8; 2], row: usize, present: &impl Fn(usize) -> bool) -> bool {
    if mark(table, document_type, row) != Some(b'O') {
        return false;
    }
    let named = |set: &&[&str]| set.iter().any(|identifier| names(identifier, row));
    let whole = |set: &&[&str]| set.iter().filter_map(|identifier| row_of(identifier.as_bytes())).all(present);
    let footnote = table.interchangeable.iter().find(|(known, _)| known.as_bytes() == document_type);
    match footnote {
        Some((_, sets)) if sets.iter().any(|set| named(&set)) => !sets.iter().any(|set| whole(&set)),
        _ => !present(row),
    }
}

/// What is marked with a dash is not permitted, nor is what is neither in the table nor in a section that it makes
/// optional, nor what is no row.
fn permitted(table: &Table, document_type: [u8; 2], row: usize) -> bool {
    match mark(table, document_type, row) {
        Some(mark) => mark != b'-',
        None => table.optional.iter().any(|section| section.contains(&row)),
    }
}
