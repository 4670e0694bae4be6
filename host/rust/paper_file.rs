//! The day file, written from document 02 (K7, K8) alone: a plain list of texts with states, its bytes, and bytes taken apart.
//! Bytes are good if the list that their records give makes the same bytes again. The tests hold the library against it.

use crate::paper::{Refusal, LONGEST_TEXT};

pub const MOST_BYTES: usize = 32_768;

// The numbers of refusals
const TOO_LONG: usize = 5;
const SLICE_TOO_SHORT: usize = 6;
const BAD_FILE: usize = 35;
const FILE_FULL: usize = 36;
const NO_RECORD: usize = 37;

#[derive(Clone, Debug, PartialEq, Eq)]
pub struct Scan {
    pub live: bool,
    pub text: Vec<u8>,
}

fn refused<T>(number: usize) -> Result<T, Refusal> {
    Err(Refusal { number, place: 0 })
}

/// The file of a list: records, starts, count, the trailer's own start.
pub fn bytes_of(list: &[Scan]) -> Vec<u8> {
    let mut bytes = Vec::new();
    let mut starts = Vec::new();
    for scan in list {
        starts.push(bytes.len() as u32);
        bytes.push(u8::from(scan.live));
        bytes.extend_from_slice(&(scan.text.len() as u16).to_be_bytes());
        bytes.extend_from_slice(&scan.text);
    }
    let trailer = bytes.len() as u32;
    for number in starts.into_iter().chain([list.len() as u32, trailer]) {
        bytes.extend_from_slice(&number.to_be_bytes());
    }
    bytes
}

/// Records from the start up to where the last number says that the trailer starts; the list has to make the same bytes again.
pub fn list_of(bytes: &[u8]) -> Option<Vec<Scan>> {
    let (_, last) = bytes.split_last_chunk::<4>()?;
    let trailer = u32::from_be_bytes(*last) as usize;
    let mut list = Vec::new();
    let mut rest = bytes.get(..trailer)?;
    while let Some((&[state, high, low], behind)) = rest.split_first_chunk::<3>() {
        let length = usize::from(u16::from_be_bytes([high, low]));
        list.push(Scan { live: state == 1, text: behind.get(..length)?.to_vec() });
        rest = &behind[length..];
    }
    (bytes_of(&list) == bytes).then_some(list)
}

/// The list of the file that stands in the slice.
pub fn open(slice: &[u8], length: usize) -> Result<Vec<Scan>, Refusal> {
    if slice.len() < MOST_BYTES {
        return refused(SLICE_TOO_SHORT);
    }
    if length > MOST_BYTES {
        return refused(BAD_FILE);
    }
    list_of(&slice[..length]).map_or_else(|| refused(BAD_FILE), Ok)
}

/// The number of the new record.
pub fn add(list: &mut Vec<Scan>, text: &[u8]) -> Result<usize, Refusal> {
    if text.len() > LONGEST_TEXT {
        return refused(TOO_LONG);
    }
    if bytes_of(list).len() + 7 + text.len() > MOST_BYTES {
        return refused(FILE_FULL);
    }
    list.push(Scan { live: true, text: text.to_vec() });
    Ok(list.len() - 1)
}

fn live(list: &[Scan], number: usize) -> Result<usize, Refusal> {
    match list.get(number) {
        Some(scan) if scan.live => Ok(number),
        _ => refused(NO_RECORD),
    }
}

pub fn withdraw(list: &mut [Scan], number: usize) -> Result<(), Refusal> {
    let number = live(list, number)?;
    list[number].live = false;
    Ok(())
}

/// Where the text starts in the file, and its length.
pub fn fetch(list: &[Scan], number: usize) -> Result<(usize, usize), Refusal> {
    let number = live(list, number)?;
    let length = list[number].text.len();
    if length > LONGEST_TEXT {
        return refused(TOO_LONG);
    }
    let before: usize = list[..number].iter().map(|scan| 3 + scan.text.len()).sum();
    Ok((before + 3, length))
}

/// The live scans with their old numbers, if lists of so many entries hold them.
pub fn squeeze(list: &[Scan], olds: usize, news: usize) -> Result<(Vec<Scan>, Vec<u32>), Refusal> {
    let kept: Vec<(u32, &Scan)> = (0..).zip(list).filter(|(_, scan)| scan.live).collect();
    if kept.len() > olds.min(news) {
        return refused(SLICE_TOO_SHORT);
    }
    Ok((kept.iter().map(|(_, scan)| (*scan).clone()).collect(), kept.iter().map(|(number, _)| *number).collect()))
}
