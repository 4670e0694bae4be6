//! The check words of document 02, K3, by another way than the library's: products without tables, by multiplying polynomials over two
//! elements and dividing by 301; the check words as the rest of a long division of the data, moved up, by the whole generator.

/// Data and check words of the 14 squares with a single block.
pub const SIZES: [(usize, usize); 14] = [
    (3, 5),
    (5, 7),
    (8, 10),
    (12, 12),
    (18, 14),
    (22, 18),
    (30, 20),
    (36, 24),
    (44, 28),
    (62, 36),
    (86, 42),
    (114, 48),
    (144, 56),
    (174, 68),
];

/// The capacities above 174.
pub const SEVERAL_BLOCKS: [usize; 10] = [204, 280, 368, 456, 576, 696, 816, 1050, 1304, 1558];

/// The product in the field: all of it first, then less 301 moved up, from the highest digit down.
pub fn times(a: u8, b: u8) -> u8 {
    let mut product = 0u32;
    for digit in 0..8 {
        if b >> digit & 1 == 1 {
            product ^= u32::from(a) << digit;
        }
    }
    for digit in (8..15).rev() {
        if product >> digit & 1 == 1 {
            product ^= 301 << (digit - 8);
        }
    }
    product as u8
}

/// (x + 2) (x + 4) .. up to the k-th power of 2, the highest word first.
pub fn generator(k: usize) -> Vec<u8> {
    let mut words = vec![1];
    let mut root = 1;
    for _ in 0..k {
        root = times(root, 2);
        let mut next = words.clone();
        next.push(0);
        for (at, &word) in words.iter().enumerate() {
            next[at + 1] ^= times(word, root);
        }
        words = next;
    }
    words
}

/// The k check words of the data.
pub fn check_words(data: &[u8], k: usize) -> Vec<u8> {
    let divisor = generator(k);
    let mut rest = data.to_vec();
    rest.resize(data.len() + k, 0);
    for at in 0..data.len() {
        let lead = rest[at];
        for (step, &word) in divisor.iter().enumerate() {
            rest[at + step] ^= times(lead, word);
        }
    }
    rest.split_off(data.len())
}

/// The list with so much room: or the refusal's number.
pub fn list(data: &[u8], room: usize) -> Result<Vec<u8>, usize> {
    let Some((_, k)) = SIZES.iter().find(|size| size.0 == data.len()) else {
        return Err(if SEVERAL_BLOCKS.contains(&data.len()) { 32 } else { 1 });
    };
    if room < data.len() + k {
        return Err(6);
    }
    Ok([data, &check_words(data, *k)].concat())
}
