// What the library is measured against: the plainest safe Rust that does the same job.
use crate::ffi::{Ledger, Pair, Parcel, State, LARGEST};
use crate::maps::Kept;
use std::cmp::Ordering;
use std::collections::{BTreeMap, HashMap};
use std::io::Write;

// ---- judging ----

fn sound_table(table: &[u64]) -> bool {
    let mut ended = false;
    let mut before = None;
    for entry in table.chunks_exact(2) {
        let (id, length) = (entry[0], entry[1]);
        if ended || length == 0 {
            if id != 0 || length != 0 {
                return false;
            }
            ended = true;
            continue;
        }
        if length > LARGEST || before.is_some_and(|b| b >= id) {
            return false;
        }
        before = Some(id);
    }
    true
}

fn sound_slots(slots: &[Parcel], sites: u64) -> Option<u64> {
    let mut waiting = 0;
    for p in slots {
        if p.length == 0 {
            if p.site != 0 || p.id != 0 || p.sender != 0 || p.serial != 0 {
                return None;
            }
        } else {
            if p.length > LARGEST || p.site >= sites || p.sender as u64 >= sites || p.sender as u64 == p.site {
                return None;
            }
            waiting += 1;
        }
    }
    Some(waiting)
}

fn sound_ledger(l: &Ledger, waiting: u64) -> bool {
    let each = [l.sent, l.copied, l.absorbed, l.lost].iter().all(|&n| n <= LARGEST);
    each && l.sent + l.copied == l.absorbed + l.lost + waiting
}

fn sound_pairs(l: &Ledger, sites: usize) -> bool {
    let rows = l.pairs[..sites].iter().enumerate();
    rows.map(|(from, row)| (from, &row[..sites]))
        .all(|(from, row)| row.iter().enumerate().all(|(to, p)| from == to || p.unheard == 0 || p.heard == 0))
}

pub fn judge(s: &State) -> bool {
    let n = 2 * s.capacity as usize;
    if s.sites < 1 || s.sites > 16 || s.capacity > 2048 || s.slots.len() > 1024 || s.words.len() != s.sites as usize * n {
        return false;
    }
    if n > 0 && !s.words.chunks_exact(n).all(sound_table) {
        return false;
    }
    match sound_slots(&s.slots, s.sites) {
        None => false,
        Some(waiting) => sound_ledger(&s.ledger, waiting) && sound_pairs(&s.ledger, s.sites as usize),
    }
}

pub fn read_once(s: &State) -> u64 {
    let words = s.words.iter().fold(0u64, |sum, w| sum.wrapping_add(*w));
    let slots = s.slots.iter().fold(words, |sum, p| sum.wrapping_add(p.site).wrapping_add(p.id).wrapping_add(p.length).wrapping_add((p.sender ^ p.serial) as u64));
    s.ledger.pairs.as_flattened().iter().fold(slots, |sum, p| sum.wrapping_add((p.heard ^ p.unheard) as u64))
}

// ---- one table ----

pub fn used(table: &[u64]) -> usize {
    let (mut lo, mut hi) = (0, table.len() / 2);
    while lo < hi {
        let mid = (lo + hi) / 2;
        if table[2 * mid + 1] != 0 { lo = mid + 1 } else { hi = mid }
    }
    lo
}

// The entries in use.
fn held(table: &[u64]) -> &[[u64; 2]] {
    table[..2 * used(table)].as_chunks::<2>().0
}

// Where the id stands, or where it would.
fn find(table: &[u64], id: u64) -> Result<usize, usize> {
    held(table).binary_search_by_key(&id, |pair| pair[0])
}

pub fn length_of(table: &[u64], id: u64) -> u64 {
    find(table, id).map_or(0, |k| table[2 * k + 1])
}

pub fn put(table: &mut [u64], id: u64, length: u64) -> bool {
    match find(table, id) {
        Ok(k) => table[2 * k + 1] = length,
        Err(k) => {
            let n = used(table);
            if 2 * n == table.len() {
                return false;
            }
            table.copy_within(2 * k..2 * n, 2 * k + 2);
            table[2 * k] = id;
            table[2 * k + 1] = length;
        }
    }
    true
}

// Two pointers into a fresh buffer; the number of lengths that rose, or none where it does not fit.
pub fn merge(target: &mut [u64], source: &[u64]) -> Option<u64> {
    let (a, b) = (held(target), held(source));
    let mut out: Vec<[u64; 2]> = Vec::with_capacity(a.len() + b.len());
    let (mut i, mut j, mut rose) = (0, 0, 0);
    while i < a.len() && j < b.len() {
        if a[i][0] < b[j][0] {
            out.push(a[i]);
            i += 1;
        } else if a[i][0] > b[j][0] {
            out.push(b[j]);
            rose += 1;
            j += 1;
        } else {
            rose += (b[j][1] > a[i][1]) as u64;
            out.push([a[i][0], a[i][1].max(b[j][1])]);
            i += 1;
            j += 1;
        }
    }
    out.extend_from_slice(&a[i..]);
    rose += (b.len() - j) as u64;
    out.extend_from_slice(&b[j..]);
    if 2 * out.len() > target.len() {
        return None;
    }
    target[..2 * out.len()].copy_from_slice(out.as_flattened());
    Some(rose)
}

// ---- a repair round ----

// Two pointers into a fresh buffer, each id with the larger length.
fn union(a: &[[u64; 2]], b: &[[u64; 2]]) -> Vec<[u64; 2]> {
    let mut out = Vec::with_capacity(a.len() + b.len());
    let (mut i, mut j) = (0, 0);
    while i < a.len() && j < b.len() {
        if a[i][0] < b[j][0] {
            out.push(a[i]);
            i += 1;
        } else if a[i][0] > b[j][0] {
            out.push(b[j]);
            j += 1;
        } else {
            out.push([a[i][0], a[i][1].max(b[j][1])]);
            i += 1;
            j += 1;
        }
    }
    out.extend_from_slice(&a[i..]);
    out.extend_from_slice(&b[j..]);
    out
}

// The union of all tables, one after the other, then a copy of it for each site; how many merges that stands for, or the refusal. A union only
// grows, so the first that does not fit is the end.
pub fn repair(s: &mut State) -> Result<u64, u32> {
    if !judge(s) {
        return Err(2);
    }
    let mut all = held(s.table(0)).to_vec();
    for site in 1..s.sites as usize {
        all = union(&all, held(s.table(site)));
        if all.len() > s.capacity as usize {
            return Err(8);
        }
    }
    for site in 0..s.sites as usize {
        s.table_mut(site)[..2 * all.len()].copy_from_slice(all.as_flattened());
    }
    Ok(2 * (s.sites - 1))
}

// ---- serials, and the steps that use them ----

// RFC 1982; none where the two are half of all serials apart.
pub fn order(a: u32, b: u32) -> Option<Ordering> {
    match a.wrapping_sub(b) {
        0 => Some(Ordering::Equal),
        1..=0x7fff_ffff => Some(Ordering::Greater),
        0x8000_0000 => None,
        _ => Some(Ordering::Less),
    }
}

// The steps judge the whole state first, as the library does; false or none where they are refused.
pub fn send(s: &mut State, from: usize, to: usize, id: u64) -> Option<usize> {
    let length = judge(s).then(|| length_of(s.table(from), id)).filter(|n| *n != 0)?;
    let slot = s.slots.iter().position(|p| p.length == 0)?;
    if s.ledger.sent == LARGEST {
        return None;
    }
    s.under_way(slot, from as u64, to as u64, id, length);
    Some(slot)
}

pub fn deliver(s: &mut State, slot: usize) -> bool {
    let p = s.slots[slot];
    if !judge(s) || p.length == 0 {
        return false;
    }
    let pair = s.ledger.pairs[p.sender as usize][p.site as usize];
    let newer = if pair.unheard != 0 { Some(Ordering::Greater) } else { order(p.serial, pair.heard) };
    let length = length_of(s.table(p.site as usize), p.id).max(p.length);
    if newer.is_none() || s.ledger.absorbed == LARGEST || !put(s.table_mut(p.site as usize), p.id, length) {
        return false;
    }
    if newer == Some(Ordering::Greater) {
        s.ledger.pairs[p.sender as usize][p.site as usize] = Pair { heard: p.serial, unheard: 0, ..pair };
    }
    s.slots[slot] = Parcel::default();
    s.ledger.absorbed += 1;
    true
}

pub fn lag(s: &State, from: usize, to: usize) -> Option<i32> {
    let p = &s.ledger.pairs[from][to];
    if !judge(s) || p.unsent != 0 || p.unheard != 0 {
        return None;
    }
    let last = p.next.wrapping_sub(1);
    order(p.heard, last).map(|_| p.heard.wrapping_sub(last) as i32)
}

// ---- membership ----

pub fn members(table: &[u64], ids: &[u64], answers: &mut [u8]) {
    answers.fill(0);
    let pairs = held(table);
    for (i, id) in ids.iter().enumerate() {
        if let Ok(k) = pairs.binary_search_by_key(id, |pair| pair[0]) {
            answers[i / 8] |= ((pairs[k][1] & 1) as u8) << (i % 8);
        }
    }
}

pub fn map_of(table: &[u64]) -> HashMap<u64, u64> {
    held(table).iter().map(|p| (p[0], p[1])).collect()
}

pub fn members_by_map(map: &HashMap<u64, u64>, ids: &[u64], answers: &mut [u8]) {
    answers.fill(0);
    for (i, id) in ids.iter().enumerate() {
        let listed = map.get(id).is_some_and(|l| l & 1 == 1);
        answers[i / 8] |= (listed as u8) << (i % 8);
    }
}

// ---- lines ----

fn number(text: &str) -> Option<u64> {
    if text.len() > 20 || text.starts_with('+') {
        return None;
    }
    text.parse().ok()
}

fn step_of(pairs: &[(&str, &str)]) -> Option<[u64; 4]> {
    match *pairs {
        [("step", "add"), ("node", n), ("id", i)] => Some([1, number(n)?, 0, number(i)?]),
        [("step", "remove"), ("node", n), ("id", i)] => Some([2, number(n)?, 0, number(i)?]),
        [("step", "query"), ("node", n), ("id", i)] => Some([3, number(n)?, 0, number(i)?]),
        [("step", "send"), ("from", a), ("to", b), ("id", i)] => Some([4, number(a)?, number(b)?, number(i)?]),
        [("step", "merge"), ("from", a), ("to", b)] => Some([5, number(a)?, number(b)?, 0]),
        [("step", "deliver"), ("slot", s)] => Some([6, number(s)?, 0, 0]),
        [("step", "again"), ("slot", s)] => Some([7, number(s)?, 0, 0]),
        [("step", "lose"), ("slot", s)] => Some([8, number(s)?, 0, 0]),
        _ => None,
    }
}

// Split and parse, the pairs in a fixed array.
pub fn read_line(line: &[u8]) -> Option<[u64; 4]> {
    let text = std::str::from_utf8(line).ok()?;
    let mut pairs = [("", ""); 5];
    let mut n = 0;
    for pair in text.split(' ').take(5) {
        pairs[n] = pair.split_once('=')?;
        n += 1;
    }
    step_of(&pairs[..n])
}

// The same as most would write it, the pairs collected into a list.
pub fn read_line_into_list(line: &[u8]) -> Option<[u64; 4]> {
    let text = std::str::from_utf8(line).ok()?;
    let pairs: Vec<(&str, &str)> = text.split(' ').map(|p| p.split_once('=')).collect::<Option<_>>()?;
    step_of(&pairs)
}

pub fn write_line(n: [u64; 4], mut buffer: &mut [u8]) -> usize {
    let room = buffer.len();
    let names = ["", "add", "remove", "query", "send", "merge", "deliver", "again", "lose"];
    let name = names[n[0] as usize];
    let done = match n[0] {
        1..=3 => write!(buffer, "step={name} node={} id={}", n[1], n[3]),
        4 => write!(buffer, "step={name} from={} to={} id={}", n[1], n[2], n[3]),
        5 => write!(buffer, "step={name} from={} to={}", n[1], n[2]),
        _ => write!(buffer, "step={name} slot={}", n[1]),
    };
    if done.is_err() { 0 } else { room - buffer.len() }
}

// ---- the report: three sites with 8 entries each, 8 slots ----

pub fn report(input: &[u8]) -> Vec<u8> {
    let mut k = Kept::<BTreeMap<u64, u64>, 3, 8, 8>::fresh(0);
    let mut out = Vec::new();
    for (i, piece) in input.split_inclusive(|b| *b == 10).enumerate() {
        let step = piece.strip_suffix(b"\n").and_then(read_line);
        match step.ok_or(11).and_then(|n| k.step(n).map(|v| (n, v))) {
            Err(refusal) => writeln!(out, "line={} refused={refusal}", i + 1).unwrap(),
            Ok((n, v)) if n[0] == 3 => writeln!(out, "line={} node={} id={} length={v} present={}", i + 1, n[1], n[3], v % 2).unwrap(),
            Ok(_) => {}
        }
    }
    for (name, count) in ["sent", "copied", "absorbed", "lost"].iter().zip(k.counts) {
        writeln!(out, "{name}={count}").unwrap();
    }
    writeln!(out, "waiting={}", k.waiting()).unwrap();
    for (i, site) in k.sites.iter().enumerate() {
        writeln!(out, "node={i} held={} shown={}", site.len(), site.values().filter(|n| *n % 2 == 1).count()).unwrap();
    }
    out
}
