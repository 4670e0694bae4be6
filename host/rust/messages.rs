//! The messages, texts and record lists that the comparison runs over: drafts made by the rules, laid out as texts or
//! as records over a slice, and then damaged. Everything follows from the dice.

use crate::ddoc::{Field, Header};
use crate::lists::{noise, Dice};
use crate::paper_rows::{row_of, Characters, Row, ROWS, ROW_COUNT, TABLES};
use crate::paper_text::write_signature;

/// One field of a draft.
#[derive(Clone)]
pub struct Piece {
    pub row: usize,
    pub data: Vec<u8>,
    pub cut: bool,
}

/// A message before it is laid out.
pub struct Draft {
    pub header: Header,
    pub pieces: Vec<Piece>,
    pub signature: Vec<u8>,
}

const VERSIONS: [&[u8; 2]; 3] = [b"02", b"03", b"04"];
const TYPES: [&[u8; 2]; 5] = [b"00", b"01", b"02", b"B0", b"B1"];
const SIGNATURES: [usize; 3] = [64, 96, 132];

fn letter(dice: &mut Dice) -> u8 {
    dice.between(usize::from(b'A'), usize::from(b'Z')) as u8
}

fn digit(dice: &mut Dice) -> u8 {
    dice.between(usize::from(b'0'), usize::from(b'9')) as u8
}

fn letter_or_digit(dice: &mut Dice) -> u8 {
    if dice.one_in(2) {
        letter(dice)
    } else {
        digit(dice)
    }
}

/// A right header; the parts that its version lacks hold noise.
pub fn header(dice: &mut Dice) -> Header {
    let version = *dice.one_of(&VERSIONS);
    let mut four = || [0; 4].map(|_: u8| letter_or_digit(dice));
    let (mut authority, certificate) = (four(), four());
    authority[0] = letter(dice);
    authority[1] = letter(dice);
    let mut day = || match dice.below(3) {
        0 => dice.one_of(&[0, 1, 9, 10, 255, 256, 4095, 4096, 4157, 0xABCD, 65_534, 65_535]),
        _ => dice.next() as u16,
    };
    let (issue_day, signing_day) = (day(), day());
    let document_type = match dice.below(2) {
        0 => *dice.one_of(&TYPES),
        _ => [letter_or_digit(dice), letter_or_digit(dice)],
    };
    let perimeter = if version == *b"02" { [dice.byte(), dice.byte()] } else { *b"01" };
    let country = if version == *b"04" { [letter(dice), letter(dice)] } else { [dice.byte(), dice.byte()] };
    Header { version, authority, certificate, issue_day, signing_day, document_type, perimeter, country }
}

fn character(dice: &mut Dice, characters: Characters) -> u8 {
    match characters {
        Characters::Numeric => digit(dice),
        Characters::Alphabetic => {
            if dice.one_in(6) {
                b' '
            } else {
                letter(dice)
            }
        }
        Characters::Alphanumeric => dice.between(32, 95) as u8,
    }
}

/// A permitted length, mostly one at the edges.
fn length(dice: &mut Dice, row: &Row) -> usize {
    match row.greatest {
        None => dice.one_of(&[0, 1, 5, 20, 70]),
        Some(greatest) => match dice.below(6) {
            0 | 1 => row.least,
            2 => greatest,
            3 => row.least.max(greatest - 1),
            _ => dice.between(row.least, greatest),
        },
    }
}

pub fn piece(dice: &mut Dice, row: usize) -> Piece {
    let of = &ROWS[row];
    let data = (0..length(dice, of)).map(|_| character(dice, of.characters)).collect();
    Piece { row, data, cut: !of.is_fixed() && dice.one_in(4) }
}

/// `count` different rows in random order.
fn some_rows(dice: &mut Dice, count: usize) -> Vec<usize> {
    let mut rows: Vec<usize> = (0..ROW_COUNT).collect();
    for at in 0..count {
        let other = dice.between(at, rows.len() - 1);
        rows.swap(at, other);
    }
    rows.truncate(count);
    rows
}

/// A right message of at most `count` fields whose text has at most 1,000 characters.
pub fn draft(dice: &mut Dice, count: usize) -> Draft {
    let pieces = some_rows(dice, count).into_iter().map(|row| piece(dice, row)).collect();
    let bytes = dice.one_of(&SIGNATURES);
    let mut draft = Draft { header: header(dice), pieces, signature: noise(dice, bytes) };
    while draft.length() > 1000 {
        draft.pieces.pop();
    }
    draft
}

pub fn some_draft(dice: &mut Dice) -> Draft {
    let count = if dice.one_in(12) { 0 } else { dice.between(1, 14) };
    draft(dice, count)
}

/// A message of `count` fields, nearly all empty, so that even 66 of them fit into a text.
pub fn many(dice: &mut Dice, count: usize) -> Draft {
    let mut draft = draft(dice, 0);
    let short: Vec<usize> = (0..ROW_COUNT).filter(|&row| ROWS[row].least <= 3).collect();
    draft.signature.truncate(64);
    while draft.pieces.len() < count {
        let row = dice.one_of(&short);
        if draft.pieces.iter().any(|piece| piece.row == row) {
            continue;
        }
        let mut piece = piece(dice, row);
        piece.data.truncate(ROWS[row].least + if dice.one_in(8) { 1 } else { 0 });
        draft.pieces.push(piece);
    }
    draft
}

/// A right message, but for its length: its text has exactly `characters` characters.
pub fn of_length(dice: &mut Dice, characters: usize) -> Draft {
    let count = dice.between(0, 10);
    let mut draft = draft(dice, count);
    // 18, one of the rows without a greatest length, takes what is left.
    draft.pieces.retain(|piece| piece.row != 21);
    let filler = Piece { row: 21, data: Vec::new(), cut: dice.one_in(2) };
    let at = dice.between(0, draft.pieces.len());
    draft.pieces.insert(at, filler);
    while draft.length() > characters {
        let last = draft.pieces.iter().rposition(|piece| piece.row != 21);
        draft.pieces.remove(last.expect("the filler alone leaves room"));
    }
    let left = characters - draft.length();
    let filler = draft.pieces.iter_mut().find(|piece| piece.row == 21).expect("it was put there");
    filler.data = (0..left).map(|_| character(dice, Characters::Alphanumeric)).collect();
    draft
}

/// The characters of a field: identifier, data, and a separator or none.
fn field_length(row: usize, data: usize, cut: bool) -> usize {
    2 + data + usize::from(cut || ROWS[row].greatest != Some(data))
}

/// The characters of the header, the mark and the signature.
fn around_fields(header: &Header, signature: usize) -> usize {
    let header = match &header.version {
        b"02" => 22,
        b"03" => 24,
        _ => 26,
    };
    header + 1 + (8 * signature + 4) / 5
}

/// A text, and where its parts stand.
pub struct Laid {
    pub text: Vec<u8>,
    /// For each field the place of its identifier and the place behind its data.
    pub fields: Vec<(usize, usize)>,
    /// The place of the 31.
    pub mark: usize,
}

impl Draft {
    pub fn text(&self) -> Vec<u8> {
        self.laid().text
    }

    fn length(&self) -> usize {
        let fields = self.pieces.iter().map(|piece| field_length(piece.row, piece.data.len(), piece.cut));
        around_fields(&self.header, self.signature.len()) + fields.sum::<usize>()
    }

    /// Nothing is checked here: a draft may break the rules.
    pub fn laid(&self) -> Laid {
        let header = &self.header;
        let days = format!("{:04X}{:04X}", header.issue_day, header.signing_day);
        let mut text = b"DC".to_vec();
        text.extend(header.version);
        text.extend(header.authority);
        text.extend(header.certificate);
        text.extend(days.as_bytes());
        text.extend(header.document_type);
        if header.version != *b"02" {
            text.extend(header.perimeter);
        }
        if header.version == *b"04" {
            text.extend(header.country);
        }
        let mut fields = Vec::new();
        for piece in &self.pieces {
            let row = &ROWS[piece.row];
            let start = text.len();
            text.extend(row.identifier);
            text.extend(&piece.data);
            fields.push((start, text.len()));
            if piece.cut {
                text.push(30);
            } else if row.greatest != Some(piece.data.len()) {
                text.push(29);
            }
        }
        let mark = text.len();
        text.push(31);
        write_signature(&self.signature, &mut text);
        Laid { text, fields, mark }
    }
}

/// Characters at the edges of the rules, and bytes that are none.
const EDGES: [u8; 40] = [
    0, 1, 9, 10, 13, 28, 29, 30, 31, 32, 33, 44, 45, 47, 48, 49, 50, 55, 56, 57, 58, 61, 64, 65, 66, 70, 71, 90, 91,
    95, 96, 97, 102, 122, 126, 127, 128, 157, 159, 255,
];

pub fn edge(dice: &mut Dice) -> u8 {
    match dice.below(4) {
        0 => dice.byte(),
        1 => dice.one_of(&[29, 30, 31]),
        _ => dice.one_of(&EDGES),
    }
}

/// One to three characters or parts are changed, inserted, lost, exchanged or doubled.
pub fn damage(dice: &mut Dice, text: &mut Vec<u8>) {
    for _ in 0..dice.one_of(&[1, 1, 1, 2, 3]) {
        if text.len() < 2 {
            return;
        }
        // Every fourth time around the 31.
        let near = text.iter().rposition(|&character| character == 31).unwrap_or(0);
        let at = match dice.below(4) {
            0 => (near + dice.below(8)).saturating_sub(4).min(text.len() - 1),
            1 => dice.below(text.len().min(27)),
            _ => dice.below(text.len()),
        };
        match dice.below(8) {
            0..=2 => text[at] = edge(dice),
            3 => text.insert(at, edge(dice)),
            4 => {
                text.remove(at);
            }
            5 => {
                let other = dice.below(text.len());
                text.swap(at, other);
            }
            6 if dice.one_in(2) => text.truncate(at),
            6 => text.push(edge(dice)),
            _ => {
                let end = text.len().min(at + dice.between(1, 40));
                let part = text[at..end].to_vec();
                let place = dice.between(0, text.len());
                text.splice(place..place, part);
            }
        }
    }
}

/// An identifier that mostly is near a known one and mostly is unknown.
pub fn identifier(dice: &mut Dice) -> [u8; 2] {
    let mut name = dice.one_of(&ROWS).identifier;
    match dice.below(4) {
        0 => name[0] = dice.one_of(b"012567ABC"),
        1 => name[1] = dice.one_of(b"0123DEKLPQYZ"),
        2 => name[dice.below(2)] = edge(dice),
        _ => name.reverse(),
    }
    name
}

/// The data get a length that the row does not permit, if it has one, or one that it does.
pub fn wrong_length(dice: &mut Dice, piece: &mut Piece) {
    let row = &ROWS[piece.row];
    let length = match row.greatest {
        Some(greatest) if row.least == 0 || dice.one_in(2) => greatest + dice.between(1, 2),
        _ => row.least - dice.between(0, row.least.min(2)),
    };
    piece.data = (0..length).map(|_| character(dice, row.characters)).collect();
}

/// A character of the data becomes one that mostly is outside the type.
pub fn wrong_character(dice: &mut Dice, piece: &mut Piece) {
    if !piece.data.is_empty() {
        let at = dice.below(piece.data.len());
        piece.data[at] = edge(dice);
    }
}

/// What the writer is given.
pub struct Order {
    pub header: Header,
    pub fields: Vec<Field>,
    pub data: Vec<u8>,
    pub signature: Vec<u8>,
}

impl Order {
    /// The text's length, if the order is right.
    pub fn length(&self) -> usize {
        let right = self.fields.iter().filter(|field| usize::from(field.row) < ROW_COUNT && field.length <= 1000);
        let fields = right.map(|field| field_length(usize::from(field.row), field.length as usize, field.cut));
        around_fields(&self.header, self.signature.len()) + fields.sum::<usize>()
    }
}

/// The draft's data in any order in a slice, with noise between them or none.
pub fn laid_over(dice: &mut Dice, draft: &Draft) -> Order {
    let count = draft.pieces.len();
    let mut starts = vec![0; count];
    let mut data = Vec::new();
    let gaps = dice.one_of(&[0, 0, 3, 20]);
    let mut places: Vec<usize> = (0..count).collect();
    if dice.one_in(2) {
        for at in (1..count).rev() {
            places.swap(at, dice.below(at + 1));
        }
    }
    for place in places {
        let gap = dice.between(0, gaps);
        data.extend(noise(dice, gap));
        starts[place] = data.len() as u32;
        data.extend(&draft.pieces[place].data);
    }
    let gap = dice.between(0, gaps);
    data.extend(noise(dice, gap));
    let fields = draft.pieces.iter().zip(starts).map(|(piece, start)| Field {
        row: piece.row as u16,
        cut: piece.cut,
        start,
        length: piece.data.len() as u32,
    });
    Order { header: draft.header, fields: fields.collect(), data, signature: draft.signature.clone() }
}

/// Records that overlap and share their bytes: digits in the first half of the slice, letters in the second.
pub fn overlapping(dice: &mut Dice) -> Order {
    let draft = some_draft(dice);
    let half = dice.between(100, 200);
    let mut data: Vec<u8> = (0..half).map(|_| digit(dice)).collect();
    data.extend((0..half).map(|_| letter(dice)).collect::<Vec<u8>>());
    let fields = draft.pieces.iter().map(|piece| {
        let from = match ROWS[piece.row].characters {
            Characters::Numeric => 0,
            Characters::Alphabetic => half,
            Characters::Alphanumeric => dice.between(0, half),
        };
        let start = from + dice.between(0, half - piece.data.len());
        Field { row: piece.row as u16, cut: piece.cut, start: start as u32, length: piece.data.len() as u32 }
    });
    let fields = fields.collect();
    Order { header: draft.header, fields, data, signature: draft.signature }
}

/// One character of the header, in any of its places, becomes another.
pub fn wrong_header(dice: &mut Dice, header: &mut Header) {
    let place = dice.below(16);
    let character = if dice.one_in(4) { dice.one_of(b"0123A/:@[`GZaf") } else { edge(dice) };
    let part: &mut [u8] = match place {
        0 | 1 => &mut header.version,
        2..=5 => &mut header.authority,
        6..=9 => &mut header.certificate,
        10 | 11 => &mut header.document_type,
        12 | 13 => &mut header.perimeter,
        _ => &mut header.country,
    };
    let at = dice.below(part.len());
    part[at] = character;
}

/// One thing about the order becomes wrong, or at least another.
pub fn spoil(dice: &mut Dice, order: &mut Order) {
    let count = order.fields.len();
    match dice.below(10) {
        0 => return wrong_header(dice, &mut order.header),
        1 => {
            let length = dice.one_of(&[0, 1, 63, 64, 65, 95, 96, 97, 103, 128, 131, 132, 133, 154, 212, 300]);
            order.signature = noise(dice, length);
            return;
        }
        _ if count == 0 => return,
        _ => {}
    }
    let at = dice.below(count);
    spoil_record(dice, order, at);
}

/// One thing about the record becomes wrong, or at least another.
pub fn spoil_record(dice: &mut Dice, order: &mut Order, at: usize) {
    let count = order.fields.len();
    let other = order.fields[dice.below(count)].row;
    let field = &mut order.fields[at];
    match dice.below(7) {
        0 => field.row = dice.one_of(&[110, 111, 127, 128, 255, 256, 32_768, 65_534, 65_535]),
        1 => field.row = if dice.one_in(2) { other } else { dice.below(112) as u16 },
        2 => field.cut = !field.cut,
        3 => field.length = (i64::from(field.length) + dice.one_of(&[-2, -1, 1, 2])).max(0) as u32,
        4 => behind(dice, field, order.data.len() as u32),
        5 => {
            // A repeat of the row, with data of its own.
            let copy = *field;
            order.fields[dice.below(count)] = copy;
        }
        _ => {
            if let Some(at) = (field.start as usize).checked_add(dice.below(1 + field.length as usize)) {
                if at < order.data.len() {
                    order.data[at] = edge(dice);
                }
            }
        }
    }
}

/// The record ends at the slice's end or behind it, by one or by so much that the sum passes 2^32.
fn behind(dice: &mut Dice, field: &mut Field, length: u32) {
    let near = dice.below(4) as u32;
    match dice.below(8) {
        0 => field.start = (length + near).saturating_sub(field.length),
        1 => field.length = (length + near).saturating_sub(field.start),
        2 => field.start = length + near,
        3 => field.start = u32::MAX - near,
        4 => field.length = u32::MAX - near,
        // The sum is 2^32, or 0 where it is counted in 32 bits.
        5 => field.start = 0u32.wrapping_sub(field.length),
        6 => field.length = 0u32.wrapping_sub(field.start),
        _ => {
            field.start = length + near;
            field.length = 0;
        }
    }
}

/// A record for conformity, which looks at the row only.
pub fn record(dice: &mut Dice, row: usize) -> Field {
    Field { row: row as u16, cut: dice.one_in(2), start: dice.next() as u32, length: dice.next() as u32 }
}

/// A type of the tables and a list of records that conforms to it, of at least `least` records.
pub fn conforming(dice: &mut Dice, least: usize) -> ([u8; 2], Vec<Field>) {
    let table = &TABLES[dice.below(TABLES.len())];
    let column = dice.below(table.types.len());
    let name = table.types[column].as_bytes();
    let row = |identifier: &str| row_of(identifier.as_bytes()).expect("the tables name known rows");
    let marked = |mark: u8| -> Vec<usize> {
        table.marks.iter().filter(|(_, marks)| marks.as_bytes()[column] == mark).map(|(id, _)| row(id)).collect()
    };
    let forbidden = marked(b'-');
    let mut rows = marked(b'O');
    // Of interchangeable fields now and then one set only.
    for (_, sets) in table.interchangeable.iter().filter(|(known, _)| known.as_bytes() == name) {
        let kept = dice.below(sets.len() + 1);
        let out = sets.iter().enumerate().filter(|(at, _)| kept < sets.len() && *at != kept);
        let out: Vec<usize> = out.flat_map(|(_, set)| set.iter().map(|id| row(id))).collect();
        rows.retain(|row| !out.contains(row));
    }
    let mut free = marked(b'F');
    free.extend(table.optional.iter().flat_map(|section| section.clone()).filter(|row| !forbidden.contains(row)));
    let count = dice.below(12);
    while rows.len() < least || rows.len() < count {
        rows.push(dice.one_of(&free));
    }
    for at in (1..rows.len()).rev() {
        rows.swap(at, dice.below(at + 1));
    }
    ([name[0], name[1]], rows.into_iter().map(|row| record(dice, row)).collect())
}

/// A type that mostly is not covered.
pub fn other_type(dice: &mut Dice) -> [u8; 2] {
    match dice.below(4) {
        0 => [dice.byte(), dice.byte()],
        1 => dice.one_of(&[*b"03", *b"0B", *b"10", *b"B2", *b"b0", *b"A0", *b"C0", *b"0/", *b"B/", *b"B:", [0, 0]]),
        2 => *dice.one_of(&TYPES),
        _ => {
            let mut name = *dice.one_of(&TYPES);
            name[dice.below(2)] = edge(dice);
            name
        }
    }
}

/// A row number, of which some name no row.
pub fn any_row(dice: &mut Dice) -> usize {
    match dice.below(4) {
        0 => dice.one_of(&[110, 111, 112, 255, 256, 32_767, 32_768, 65_535]),
        _ => dice.below(ROW_COUNT),
    }
}
