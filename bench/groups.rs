// Groups of 64 entries, written, read and absorbed: with ids that lie near each other, so that a gap takes one byte or two, and with ids all over the 64 bits, so
// that it takes eight or nine.
use crate::ffi::{self, State};
use crate::{codec, measure, plain, timed, Random, Row};
use std::hint::black_box;

const ENTRIES: usize = 64;
const INPUTS: usize = 8;
const GROUPS: usize = 512; // of each input: one is over sooner than a clock can tell, and the jumps of 4,096 a predictor does not know by heart

#[derive(Clone, Copy)]
enum Gaps {
    Near,
    Far,
}

impl Gaps {
    fn words(self) -> &'static str {
        match self {
            Gaps::Near => "gaps of 1 and 2 bytes",
            Gaps::Far => "gaps of 8 and 9 bytes",
        }
    }

    // As often the one width as the other.
    fn draw(self, r: &mut Random) -> u64 {
        match (self, r.below(2)) {
            (Gaps::Near, 0) => r.below(1 << 7),
            (Gaps::Near, _) => (1 << 7) + r.below((1 << 14) - (1 << 7)),
            (Gaps::Far, 0) => (1 << 49) + r.below(1 << 55),
            (Gaps::Far, _) => (1 << 56) + r.below(1 << 56),
        }
    }
}

fn some_group(r: &mut Random, gaps: Gaps) -> Vec<u64> {
    let mut least = 0;
    (0..ENTRIES)
        .flat_map(|_| {
            let id = least + gaps.draw(r);
            least = id + 1;
            [id, 1 + r.below(5)]
        })
        .collect()
}

fn bytes_of(entries: &[u64]) -> Vec<u8> {
    let mut out = [0; 961];
    let n = codec::write_group(entries, &mut out).unwrap();
    out[..n].to_vec()
}

fn writing_and_reading(rows: &mut Vec<Row>, rounds: usize, gaps: Gaps) {
    let mut r = Random(10);
    let groups: Vec<Vec<Vec<u64>>> = (0..INPUTS).map(|_| (0..GROUPS).map(|_| some_group(&mut r, gaps)).collect()).collect();
    let bytes: Vec<Vec<Vec<u8>>> = groups.iter().map(|list| list.iter().map(|g| bytes_of(g)).collect()).collect();
    for (g, b) in groups.iter().flatten().zip(bytes.iter().flatten()) {
        let (mut out, mut words) = ([0; 961], [0; 2 * ENTRIES]);
        assert_eq!((ffi::write_group(g, &mut out), &out[..b.len()]), (Ok(b.len()), &b[..]));
        assert_eq!((ffi::read_group(b, &mut words), &words[..]), (Ok(ENTRIES), &g[..]));
        words.fill(0);
        assert_eq!((codec::read_group(b, &mut words), &words[..]), (Ok(ENTRIES), &g[..]));
    }
    refused_alike(&groups[0][0], &bytes[0][0]);
    let per = (GROUPS * ENTRIES) as f64;
    let job = format!("writing a group of 64 entries, {}", gaps.words());
    measure(rows, &job, "ns per entry", per, INPUTS, rounds, vec![
        ("library", Box::new(|i| timed(|| for g in &groups[i] { let _ = black_box(ffi::write_group(g, black_box(&mut [0; 961]))); }))),
        ("a plain codec with the same tests", Box::new(|i| timed(|| for g in &groups[i] { let _ = black_box(codec::write_group(g, black_box(&mut [0; 961]))); }))),
    ]);
    let job = format!("reading a group of 64 entries, {}", gaps.words());
    measure(rows, &job, "ns per entry", per, INPUTS, rounds, vec![
        ("library", Box::new(|i| timed(|| for b in &bytes[i] { let _ = black_box(ffi::read_group(b, black_box(&mut [0; 128]))); }))),
        ("a plain codec with the same tests", Box::new(|i| timed(|| for b in &bytes[i] { let _ = black_box(codec::read_group(b, black_box(&mut [0; 128]))); }))),
    ]);
}

// A rival that refused less would have less to do.
fn refused_alike(entries: &[u64], bytes: &[u8]) {
    let with = |k: usize, word: u64| { let mut e = entries.to_vec(); e[k] = word; e };
    let more: Vec<u8> = bytes.iter().copied().chain([0]).collect();
    let wrong = [entries[..127].to_vec(), [entries, &[u64::MAX, 1]].concat(), with(2, entries[0]), with(1, 0), with(1, 1 << 32)];
    for e in &wrong {
        assert_eq!((ffi::write_group(e, &mut [0; 961]), codec::write_group(e, &mut [0; 961])), (Err(17), Err(17)));
    }
    for b in [&bytes[..0], &bytes[..bytes.len() - 1], &more, &[1, 128, 0, 0], &[65], &[1, 0, 255, 255, 255, 255, 15]] {
        assert_eq!((ffi::read_group(b, &mut [0; 128]), codec::read_group(b, &mut [0; 128])), (Err(17), Err(17)));
    }
    let short = bytes.len() - 1;
    assert_eq!((ffi::write_group(entries, &mut vec![0; short]), codec::write_group(entries, &mut vec![0; short])), (Err(13), Err(13)));
    assert_eq!((ffi::read_group(bytes, &mut [0; 127]), codec::read_group(bytes, &mut [0; 127])), (Err(13), Err(13)));
}

// A table that just has room for the group, half of which it has already; the rest of it, and the other site's table, are full.
struct Meeting {
    before: State,
    bytes: Vec<u8>,
}

fn some_meeting(r: &mut Random, capacity: usize, gap: u64) -> Meeting {
    let mut before = State::fresh(2, capacity, 0);
    let mut id = 0;
    let mut all: Vec<[u64; 2]> = Vec::new();
    for _ in 0..capacity {
        id += 1 + r.below(gap);
        all.push([id, 1 + r.below(5)]);
    }
    before.table_mut(1).copy_from_slice(all.as_flattened());
    let mut of = vec![0u8; capacity - ENTRIES]; // 0 the table's alone, 1 both have it, 2 the group's alone
    of.extend([1; ENTRIES / 2]);
    of.extend([2; ENTRIES / 2]);
    r.shuffle(&mut of);
    let held: Vec<u64> = all.iter().zip(&of).filter(|(_, o)| **o < 2).flat_map(|(e, _)| *e).collect();
    let group: Vec<u64> = all.iter().zip(&of).filter(|(_, o)| **o > 0).flat_map(|(e, _)| [e[0], 1 + r.below(5)]).collect();
    before.table_mut(0)[..held.len()].copy_from_slice(&held);
    Meeting { before, bytes: bytes_of(&group) }
}

fn judged(s: &mut State, bytes: &[u8]) -> Result<u64, u32> {
    if !plain::judge(black_box(s)) {
        return Err(2);
    }
    codec::absorb(s, 0, bytes)
}

// Each input has so many states, which take one group each.
fn absorbing(rows: &mut Vec<Row>, rounds: usize, job: &str, states: usize, capacity: usize, gap: u64) {
    let mut r = Random(11);
    let meetings: Vec<Vec<Meeting>> = (0..INPUTS).map(|_| (0..states).map(|_| some_meeting(&mut r, capacity, gap)).collect()).collect();
    let fresh = || -> Vec<Vec<State>> { meetings.iter().map(|list| list.iter().map(|m| m.before.clone()).collect()).collect() };
    let (mut a, mut b, mut c) = (fresh(), fresh(), fresh());
    for (i, list) in meetings.iter().enumerate() {
        for (k, m) in list.iter().enumerate() {
            let rose = a[i][k].absorb(0, &m.bytes);
            assert!(rose.is_ok_and(|n| n >= 32) && rose == judged(&mut b[i][k], &m.bytes));
            assert!(a[i][k] == b[i][k]);
            assert_eq!((a[i][k].absorb(0, &m.bytes[1..]), codec::absorb(&mut b[i][k], 0, &m.bytes[1..])), (Err(17), Err(17)));
        }
    }
    let put_back = |of: &mut [State], i: usize| of.iter_mut().zip(&meetings[i]).for_each(|(s, m)| s.words.copy_from_slice(&m.before.words));
    measure(rows, job, "ns", states as f64, INPUTS, rounds, vec![
        ("library", Box::new(|i| {
            put_back(&mut a[i], i);
            timed(|| for (s, m) in a[i].iter_mut().zip(&meetings[i]) { let _ = black_box(s.absorb(0, &m.bytes)); })
        })),
        ("a plain loop and a plain codec with the same tests, then two pointers into a fresh buffer", Box::new(|i| {
            put_back(&mut b[i], i);
            timed(|| for (s, m) in b[i].iter_mut().zip(&meetings[i]) { let _ = black_box(judged(s, &m.bytes)); })
        })),
        ("a plain codec and two pointers into a fresh buffer alone, the run not judged", Box::new(|i| {
            put_back(&mut c[i], i);
            timed(|| for (s, m) in c[i].iter_mut().zip(&meetings[i]) { let _ = black_box(codec::absorb(s, 0, &m.bytes)); })
        })),
    ]);
}

pub fn all(rows: &mut Vec<Row>, rounds: usize) {
    writing_and_reading(rows, rounds, Gaps::Near);
    writing_and_reading(rows, rounds, Gaps::Far);
    // among the ids of the table the group's lie two and more apart, so that these gaps are about half of the group's
    absorbing(rows, rounds, "absorbing a group of 64 entries, gaps of 1 and 2 bytes, 2 x 128 entries", 32, 128, 120);
    absorbing(rows, rounds, "absorbing a group of 64 entries, gaps of 8 and 9 bytes, 2 x 128 entries", 32, 128, 1 << 56);
    absorbing(rows, rounds, "absorbing a group of 64 entries, gaps of 1 and 2 bytes, 2 x 2,048 entries", 1, 2048, 10);
}
