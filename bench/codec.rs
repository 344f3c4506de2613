// Groups in plain safe Rust: unsigned LEB128 as most would write it, with the same refusals as the library, and nothing written on one.
use crate::ffi::{State, LARGEST};
use crate::plain;

const MOST: usize = 64;

fn put_number(out: &mut [u8], at: &mut usize, mut n: u64) {
    while n > 127 {
        out[*at] = n as u8 | 128;
        *at += 1;
        n >>= 7;
    }
    out[*at] = n as u8;
    *at += 1;
}

// The number at the front of the bytes, which lose it.
fn take_number(bytes: &mut &[u8]) -> Option<u64> {
    let (mut n, mut shift) = (0, 0);
    loop {
        let (&byte, rest) = bytes.split_first()?;
        *bytes = rest;
        if shift == 63 && byte > 1 {
            return None; // past 64 bits
        }
        n |= ((byte & 127) as u64) << shift;
        if byte < 128 {
            return if byte == 0 && shift > 0 { None } else { Some(n) }; // padding
        }
        shift += 7;
    }
}

// How many bytes it wrote, or the refusal.
pub fn write_group(entries: &[u64], out: &mut [u8]) -> Result<usize, u32> {
    let (pairs, odd) = entries.as_chunks::<2>();
    if !odd.is_empty() || pairs.len() > MOST {
        return Err(17);
    }
    let (mut bytes, mut n, mut before) = ([0; 961], 0, None);
    put_number(&mut bytes, &mut n, pairs.len() as u64);
    for &[id, length] in pairs {
        if length == 0 || length > LARGEST || before.is_some_and(|b| b >= id) {
            return Err(17);
        }
        put_number(&mut bytes, &mut n, before.map_or(id, |b| id - b - 1));
        put_number(&mut bytes, &mut n, length - 1);
        before = Some(id);
    }
    out.get_mut(..n).ok_or(13u32)?.copy_from_slice(&bytes[..n]);
    Ok(n)
}

fn take_entries(mut bytes: &[u8], entries: &mut [[u64; 2]; MOST]) -> Option<usize> {
    let count = take_number(&mut bytes).filter(|n| *n <= MOST as u64)? as usize;
    let mut before: Option<u64> = None;
    for entry in &mut entries[..count] {
        let (gap, less) = (take_number(&mut bytes)?, take_number(&mut bytes)?);
        let id = match before {
            None => gap,
            Some(b) => b.checked_add(1)?.checked_add(gap)?,
        };
        if less >= LARGEST {
            return None;
        }
        *entry = [id, less + 1];
        before = Some(id);
    }
    bytes.is_empty().then_some(count)
}

// How many entries it wrote, or the refusal.
pub fn read_group(bytes: &[u8], words: &mut [u64]) -> Result<usize, u32> {
    let mut entries = [[0; 2]; MOST];
    let count = take_entries(bytes, &mut entries).ok_or(17u32)?;
    words.get_mut(..2 * count).ok_or(13u32)?.copy_from_slice(entries[..count].as_flattened());
    Ok(count)
}

// The entries, then the merge of whole tables; how many lengths rose, or the refusal.
pub fn absorb(s: &mut State, site: usize, bytes: &[u8]) -> Result<u64, u32> {
    let mut entries = [[0; 2]; MOST];
    let count = take_entries(bytes, &mut entries).ok_or(17u32)?;
    plain::merge(s.table_mut(site), entries[..count].as_flattened()).ok_or(8)
}
