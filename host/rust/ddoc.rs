//! The library's C interface (include/ddoc.h) as a Rust module.
//! To link: put this file beside a program that says `mod ddoc;` and name the archive to the compiler,
//! `rustc -O --edition 2021 program.rs -C link-arg=target/staticlib/libddoc.a`.

// A program need not call everything.
#![allow(dead_code)]

/// What comes back. Number 0: accepted. Any other number is a refusal of document 01 or 02.
#[repr(C)]
#[derive(Clone, Copy, Debug, PartialEq, Eq)]
pub struct Answer {
    pub number: usize,
    /// Refused: the index of the codeword, character or record, the place in the header, or the row for 29. Accepted: 0.
    pub place: usize,
    /// Characters of text, codewords of a symbol written, words of a list with check words, or bytes of a day file; 0 if refused and for conformity.
    pub length: usize,
    /// Codewords before the first pad, all of them if there is no pad; the number of a record added; live records; 0 if refused and for texts.
    pub used: usize,
}

/// A field: its row, whether it is cut, and where its data stand in a slice.
#[repr(C)]
#[derive(Clone, Copy, Debug, PartialEq, Eq)]
pub struct Field {
    pub row: u16,
    pub cut: bool,
    pub start: u32,
    pub length: u32,
}

/// The header's parts. Those that the version lacks are zero after reading and not looked at in writing.
#[repr(C)]
#[derive(Clone, Copy, Debug, Default, PartialEq, Eq)]
pub struct Header {
    pub version: [u8; 2],
    pub authority: [u8; 4],
    pub certificate: [u8; 4],
    pub issue_day: u16,
    pub signing_day: u16,
    pub document_type: [u8; 2],
    pub perimeter: [u8; 2],
    pub country: [u8; 2],
}

/// What comes back from reading a text. Refused: everything but number and place is zero.
#[repr(C)]
#[derive(Clone, Copy, Debug, PartialEq, Eq)]
pub struct Message {
    pub number: usize,
    /// Refused: the index into the text. Accepted: 0.
    pub place: usize,
    /// The records stored in the lent list.
    pub fields: usize,
    pub signature_length: usize,
    /// The signed part: so many characters from the text's beginning.
    pub signed_length: usize,
    pub header: Header,
    /// Zero behind its length.
    pub signature: [u8; 132],
}

/// A part of a lent slice. Refused: start and length are 0.
#[repr(C)]
#[derive(Clone, Copy, Debug, PartialEq, Eq)]
pub struct Part {
    pub number: usize,
    pub place: usize,
    /// 0: there is one slice only.
    pub which: usize,
    pub start: usize,
    pub length: usize,
}

/// The texts of day files, counted: by the types that conformity covers (00, 01, 02, B0, B1), all other types, and refusals by number.
#[repr(C)]
#[derive(Clone, Copy, Debug, PartialEq, Eq)]
pub struct Tally {
    pub types: [u32; 5],
    pub other: u32,
    pub refused: [u32; 256],
}

extern "C" {
    fn ddoc_read_symbol(codewords: *const u8, count: usize, text: *mut u8, room: usize) -> Answer;
    fn ddoc_write_symbol(
        text: *const u8,
        length: usize,
        largest: usize,
        work: *mut u16,
        work_room: usize,
        symbol: *mut u8,
        room: usize,
    ) -> Answer;
    fn ddoc_check_words(data: *const u8, count: usize, list: *mut u8, room: usize) -> Answer;
    fn ddoc_read_text(text: *const u8, length: usize, fields: *mut Field, room: usize) -> Message;
    fn ddoc_write_text(
        header: Header,
        fields: *const Field,
        count: usize,
        data: *const u8,
        data_length: usize,
        signature: *const u8,
        signature_length: usize,
        out: *mut u8,
        room: usize,
    ) -> Answer;
    fn ddoc_conformity(type0: u8, type1: u8, fields: *const Field, count: usize) -> Answer;
    fn ddoc_day_add(file: *mut u8, room: usize, length: usize, text: *const u8, text_length: usize) -> Answer;
    fn ddoc_day_withdraw(file: *mut u8, room: usize, length: usize, number: usize) -> Answer;
    fn ddoc_day_fetch(file: *const u8, room: usize, length: usize, number: usize) -> Part;
    fn ddoc_day_squeeze(
        file: *mut u8,
        room: usize,
        length: usize,
        old_numbers: *mut u32,
        old_room: usize,
        new_numbers: *mut u32,
        new_room: usize,
    ) -> Answer;
    fn ddoc_tally_add(tally: *mut Tally, file: *const u8, length: usize) -> Answer;
}

// Slices cannot overlap where one of them is written to, and the library keeps no pointer.

/// Reads the codewords into the lent text, which needs 1,000 bytes or more (else refusal 6). Each pad is looked at (39).
/// Accepted: the first `length` bytes are the text, the others untouched. Refused: all are untouched.
pub fn read_symbol(codewords: &[u8], text: &mut [u8]) -> Answer {
    unsafe { ddoc_read_symbol(codewords.as_ptr(), codewords.len(), text.as_mut_ptr(), text.len()) }
}

/// Writes the text into the smallest symbol that holds it, of at most `largest` codewords. The work slice needs 8,192
/// entries or more (else refusal 6); its first 8,192 are zero afterwards, but untouched for 5, 7, 8 and its own 6.
/// Accepted: the first `length` bytes are the symbol, the others untouched. Refused: all are untouched.
pub fn write_symbol(text: &[u8], largest: usize, work: &mut [u16], symbol: &mut [u8]) -> Answer {
    unsafe {
        let (lent, room) = (symbol.as_mut_ptr(), symbol.len());
        ddoc_write_symbol(text.as_ptr(), text.len(), largest, work.as_mut_ptr(), work.len(), lent, room)
    }
}

/// Puts the data codewords and behind them their check words into the lent list.
/// Accepted: the first `length` bytes are the list, the others untouched. Refused: all are untouched.
pub fn check_words(data: &[u8], list: &mut [u8]) -> Answer {
    unsafe { ddoc_check_words(data.as_ptr(), data.len(), list.as_mut_ptr(), list.len()) }
}

/// Reads the text into the lent list, which needs 64 records or more (else refusal 6).
/// Accepted: the first `fields` records are the fields, the others untouched. Refused: all are untouched.
pub fn read_text(text: &[u8], fields: &mut [Field]) -> Message {
    unsafe { ddoc_read_text(text.as_ptr(), text.len(), fields.as_mut_ptr(), fields.len()) }
}

/// Writes the message into the lent output; the records point into `data`.
/// Accepted: the first `length` bytes are the text, the others untouched. Refused: all are untouched.
pub fn write_text(header: Header, fields: &[Field], data: &[u8], signature: &[u8], out: &mut [u8]) -> Answer {
    unsafe {
        ddoc_write_text(
            header,
            fields.as_ptr(),
            fields.len(),
            data.as_ptr(),
            data.len(),
            signature.as_ptr(),
            signature.len(),
            out.as_mut_ptr(),
            out.len(),
        )
    }
}

/// Whether the fields are those that the type asks for and permits.
pub fn conformity(document_type: [u8; 2], fields: &[Field]) -> Answer {
    unsafe { ddoc_conformity(document_type[0], document_type[1], fields.as_ptr(), fields.len()) }
}

/// Adds a live record to the day file whose first `length` bytes stand in `file`, which needs 32,768 bytes or more (else refusal 6).
/// Accepted: `length` is the file's now, `used` the record's number, and nothing behind the file is changed. Refused: all is untouched.
pub fn day_add(file: &mut [u8], length: usize, text: &[u8]) -> Answer {
    unsafe { ddoc_day_add(file.as_mut_ptr(), file.len(), length, text.as_ptr(), text.len()) }
}

/// Withdraws the record of that number. Accepted: `length` is the file's, as it was. Refused: all is untouched.
pub fn day_withdraw(file: &mut [u8], length: usize, number: usize) -> Answer {
    unsafe { ddoc_day_withdraw(file.as_mut_ptr(), file.len(), length, number) }
}

/// The text of the record of that number, as a part of `file`.
pub fn day_fetch(file: &[u8], length: usize, number: usize) -> Part {
    unsafe { ddoc_day_fetch(file.as_ptr(), file.len(), length, number) }
}

/// Takes back the room of withdrawn records: the live ones in their old order, zeros up to the old end. `length` is the file's now, `used`
/// the live records; the two lists begin with their old and their new numbers, and their other entries are untouched. Refused: all is untouched.
pub fn day_squeeze(file: &mut [u8], length: usize, old_numbers: &mut [u32], new_numbers: &mut [u32]) -> Answer {
    unsafe {
        let (olds, old_room) = (old_numbers.as_mut_ptr(), old_numbers.len());
        let (news, new_room) = (new_numbers.as_mut_ptr(), new_numbers.len());
        ddoc_day_squeeze(file.as_mut_ptr(), file.len(), length, olds, old_room, news, new_room)
    }
}

/// Reads each live text of the day file, which is all of `file`, and counts it. Refused (35, 38): the tally is as it was.
pub fn tally_add(tally: &mut Tally, file: &[u8]) -> Answer {
    unsafe { ddoc_tally_add(tally, file.as_ptr(), file.len()) }
}
