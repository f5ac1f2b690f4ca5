//! Products given by rows as plain Rust: what one writes by hand for speed, without proofs (B5 to B10). Safe Rust, nothing on the
//! heap. A row is one number of 128 bits, and what is asked of every entry is asked of 16 at a time. Small products have small tables,
//! since filling large ones is most of their time.

use crate::fast::{value_told, Refusal};

/// The number of a component that idles.
const IDLE: u8 = 255;

#[derive(Clone, Copy)]
struct Component<'a> {
    states: u8,
    initial: u8,
    /// Source and target of each.
    transitions: &'a [[u8; 2]],
}

/// A set of rows: 8 of them, or 64.
trait Rows: Copy {
    const NONE: Self;
    fn with(self, row: u32) -> Self;
    fn bits(self) -> u64;
}

impl Rows for u8 {
    const NONE: u8 = 0;
    #[inline(always)]
    fn with(self, row: u32) -> u8 {
        self | 1 << (row & 7)
    }
    #[inline(always)]
    fn bits(self) -> u64 {
        self as u64
    }
}

impl Rows for u64 {
    const NONE: u64 = 0;
    #[inline(always)]
    fn with(self, row: u32) -> u64 {
        self | 1 << row
    }
    #[inline(always)]
    fn bits(self) -> u64 {
        self
    }
}

/// A product that no refusal but 13 is for, of at most N components.
struct Read<'a, const N: usize> {
    n: usize,
    m: usize,
    components: [Component<'a>; N],
    alphabets: [u64; N],
    /// The bytes of the rows.
    rows: &'a [u8],
}

/// The components, and the bytes behind them; nothing where 15 holds for a component.
#[inline(always)]
fn components<const N: usize>(bytes: &[u8], n: usize) -> Option<([Component<'_>; N], &[u8])> {
    let mut components = [Component {
        states: 0,
        initial: 0,
        transitions: &[],
    }; N];
    let mut rest = bytes;
    for component in &mut components[..n] {
        let &[states, initial, count, ref tail @ ..] = rest else {
            return None;
        };
        let (ends, behind) = tail.split_at_checked(2 * count as usize)?;
        let highest = ends.iter().fold(initial, |high, &end| high.max(end));
        if states < 1 || states > 32 || highest >= states {
            return None;
        }
        *component = Component {
            states,
            initial,
            transitions: ends.as_chunks().0,
        };
        rest = behind;
    }
    Some((components, rest))
}

/// Each row in 16 bytes. The 16 bytes that end with the row are read at once, where there are so many.
#[inline(always)]
fn padded<const M: usize>(product: &[u8], n: usize, m: usize) -> [[u8; 16]; M] {
    let mut rows = [[0; 16]; M];
    let begin = product.len() - n * m;
    for (g, row) in rows[..m].iter_mut().enumerate() {
        let front = &product[..begin + n * (g + 1)];
        match front.last_chunk() {
            Some(sixteen) => *row = (u128::from_le_bytes(*sixteen) >> (128 - 8 * n)).to_le_bytes(),
            None => row[..n].copy_from_slice(&front[front.len() - n..]),
        }
    }
    rows
}

/// What one row adds: 255 in `out` for a number that is out of range, and the row's bit in `bits` for each component that moves.
#[inline(always)]
fn look(row: &[u8; 16], counts: &[u8; 16], bit: u8, out: &mut [u8; 16], bits: &mut [u8; 16]) {
    for j in 0..16 {
        let moves = if row[j] == IDLE { 0 } else { 255 };
        let high = if row[j] < counts[j] { 0 } else { 255 };
        out[j] |= high & moves;
        bits[j] |= bit & moves;
    }
}

/// The alphabets; nothing where a number is out of range. Entries behind the last component are 0 and below every count.
#[inline(always)]
fn alphabets<const N: usize, const B: usize>(rows: &[[u8; 16]], counts: &[u8; 16]) -> Option<[u64; N]> {
    let mut bits = [[0u8; 16]; B];
    let mut out = [0u8; 16];
    for (eight, bits) in rows.chunks(8).zip(&mut bits) {
        for (g, row) in eight.iter().enumerate() {
            look(row, counts, 1 << g, &mut out, bits);
        }
    }
    if out != [0; 16] {
        return None;
    }
    let mut alphabets = [0; N];
    for (k, eight) in bits.iter().enumerate() {
        for (alphabet, &bits) in alphabets.iter_mut().zip(eight) {
            *alphabet |= (bits as u64) << (8 * k);
        }
    }
    Some(alphabets)
}

/// A row as a number; only 8 bytes of it where no row has more.
#[inline(always)]
fn key<const N: usize>(row: &[u8; 16]) -> u128 {
    let whole = u128::from_le_bytes(*row);
    if N <= 8 {
        whole as u64 as u128
    } else {
        whole
    }
}

/// Whether two of the rows are equal: each with each where they are few, else by a table of hashes.
#[inline(always)]
fn repeated<const N: usize>(rows: &[[u8; 16]]) -> bool {
    if rows.len() <= 12 {
        let twice = |g: usize| rows[..g].iter().any(|row| key::<N>(row) == key::<N>(&rows[g]));
        return (1..rows.len()).any(twice);
    }
    let mut table = [0u8; 256];
    for (g, row) in rows.iter().enumerate() {
        let key = key::<N>(row);
        let folded = (key as u64).wrapping_mul(0x9e37_79b9_7f4a_7c15) ^ (key >> 64) as u64;
        let mut place = (folded.wrapping_mul(0xd6e8_feb8_6659_fd93) >> 56) as usize;
        while table[place] != 0 {
            if rows[table[place] as usize - 1] == *row {
                return true;
            }
            place = (place + 1) % 256;
        }
        table[place] = g as u8 + 1;
    }
    false
}

/// Refusals 15, 16 and 17, of a product of at most N components and M rows, that is B bytes of a set.
#[inline(always)]
fn read<const N: usize, const M: usize, const B: usize>(
    product: &[u8],
    n: usize,
    m: usize,
) -> Result<Read<'_, N>, Refusal> {
    let (components, rows) = components::<N>(&product[2..], n).ok_or((15, 0))?;
    if rows.len() != n * m {
        return Err((15, 0));
    }
    let mut counts = [IDLE; 16];
    for j in 0..n {
        counts[j] = components[j].transitions.len() as u8;
    }
    let padded = padded::<M>(product, n, m);
    let alphabets = alphabets::<N, B>(&padded[..m], &counts).ok_or((15, 0))?;
    let moving = alphabets[..n].iter().fold(0, |rows, alphabet| rows | alphabet);
    if moving != u64::MAX >> (64 - m) || repeated::<N>(&padded[..m]) {
        return Err((16, 0));
    }
    if alphabets[..n].iter().any(|&alphabet| alphabet == 0) {
        return Err((17, 0));
    }
    Ok(Read {
        n,
        m,
        components,
        alphabets,
        rows,
    })
}

/// The record of a component.
#[inline(always)]
fn record(component: &Component, alphabet: u64) -> [u8; 16] {
    let low = component.states as u64 | 1 << (32 + (component.initial & 31));
    (low as u128 | (alphabet as u128) << 64).to_le_bytes()
}

/// Writes the transitions of component j: the rows of each source as a set, then source by source.
#[inline(always)]
fn write_transitions<'a, const N: usize, R: Rows>(
    read: &Read<N>,
    j: usize,
    places: &mut impl Iterator<Item = &'a mut [u8; 4]>,
) {
    let transitions = read.components[j].transitions;
    let column = &read.rows[j..];
    let mut leaving = [R::NONE; 32];
    let mut sources = 0u32;
    let mut left = read.alphabets[j];
    while left != 0 {
        let g = left.trailing_zeros();
        left &= left - 1;
        let source = transitions[column[g as usize * read.n] as usize][0] & 31;
        leaving[source as usize] = leaving[source as usize].with(g);
        sources |= 1 << source;
    }
    while sources != 0 {
        let source = sources.trailing_zeros() as usize & 31;
        sources &= sources - 1;
        let mut left = leaving[source].bits();
        while left != 0 {
            let g = left.trailing_zeros() as usize;
            left &= left - 1;
            let target = transitions[column[g * read.n] as usize][1];
            if let Some(place) = places.next() {
                *place = [j as u8, source as u8, g as u8, target];
            }
        }
    }
}

/// Writes the sheet; 13 where it has no room.
#[inline(always)]
fn write<const N: usize, R: Rows>(read: &Read<N>, out: &mut [u8]) -> Result<usize, Refusal> {
    let (n, m) = (read.n, read.m);
    let count: u32 = read.alphabets[..n]
        .iter()
        .map(|alphabet| alphabet.count_ones())
        .sum();
    let (t, s) = (16 * n, 16 * n + 4 * count as usize);
    let Some(out) = out.get_mut(..s + 10) else {
        return Err((13, 0));
    };
    let (records, rest) = out.split_at_mut(t);
    for (j, place) in records.as_chunks_mut().0.iter_mut().enumerate() {
        *place = record(&read.components[j], read.alphabets[j]);
    }
    let (fours, trailer) = rest.split_at_mut(s - t);
    let mut places = fours.as_chunks_mut().0.iter_mut();
    for j in 0..n {
        write_transitions::<N, R>(read, j, &mut places);
    }
    let (t, s) = ((t as u16).to_le_bytes(), (s as u16).to_le_bytes());
    trailer.copy_from_slice(&[0, 0, t[0], t[1], s[0], s[1], n as u8, m as u8, 0x46, 0x53]);
    Ok(out.len())
}

/// The sheet written, or the refusal.
#[inline(always)]
fn written(product: &[u8], out: &mut [u8]) -> Result<usize, Refusal> {
    let &[n, m, ..] = product else {
        return Err((15, 0));
    };
    match (n as usize, m as usize) {
        (n @ 1..=4, m @ 1..=8) => write::<4, u8>(&read::<4, 8, 1>(product, n, m)?, out),
        (n @ 1..=16, m @ 1..=64) => write::<16, u64>(&read::<16, 64, 8>(product, n, m)?, out),
        _ => Err((15, 0)),
    }
}

/// The sheet that a product becomes. 0, and `answer` gets the bytes written; or the refusal, and all is as it came.
#[inline(never)]
pub fn rows(product: &[u8], out: &mut [u8], answer: &mut [u64]) -> u64 {
    value_told(written(product, out), answer)
}
