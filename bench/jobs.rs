// The jobs of one call each.
use crate::ffi::{self, State, ADD, DELIVER, LARGEST, MERGE, QUERY, REMOVE};
use crate::{links, measure, plain, timed, Contender, Random, Row};
use std::hint::black_box;

pub const INPUTS: usize = 8;

pub fn rising_ids(r: &mut Random, count: usize, gap: u64) -> Vec<u64> {
    let mut id = r.below(gap);
    (0..count)
        .map(|_| {
            let this = id;
            id += 1 + r.below(gap);
            this
        })
        .collect()
}

pub fn lay(table: &mut [u64], ids: &[u64], r: &mut Random) {
    table.fill(0);
    for (k, id) in ids.iter().enumerate() {
        table[2 * k] = *id;
        table[2 * k + 1] = 1 + r.below(5);
    }
}

// 16 sites with 2,048 places and `free` of them free at site 0, 1,024 slots of which half wait, the first for site 0.
pub fn largest_state(r: &mut Random, free: usize) -> State {
    let mut s = State::fresh(16, 2048, 1024);
    for site in 0..16 {
        let ids = rising_ids(r, if site == 0 { 2048 - free } else { 2048 }, 1 << 40);
        lay(s.table_mut(site), &ids, r);
    }
    half_under_way(r, &mut s);
    s
}

// Half of the slots wait, the first for site 0.
pub fn half_under_way(r: &mut Random, s: &mut State) {
    for k in 0..s.slots.len() {
        if k == 0 || r.below(2) == 0 {
            let site = if k == 0 { 0 } else { r.below(s.sites) };
            let id = s.table(site as usize)[0] + 1; // an id between the first two of that table
            s.under_way(k, (site + 1 + r.below(s.sites - 1)) % s.sites, site, id, 1 + r.below(LARGEST));
        }
    }
}

fn judging(rows: &mut Vec<Row>, rounds: usize) {
    let mut r = Random(1);
    let states: Vec<State> = (0..INPUTS).map(|_| largest_state(&mut r, 0)).collect();
    let ids: Vec<u64> = states.iter().map(|s| s.table(7)[2 * r.below(2048) as usize]).collect();
    let mut lent = states.clone();
    for i in 0..INPUTS {
        assert!(plain::judge(&states[i]));
        assert_eq!(lent[i].step(QUERY, 7, 0, ids[i]), (0, plain::length_of(states[i].table(7), ids[i])));
    }
    let contenders: Vec<Contender> = vec![
        ("library", Box::new(|i| timed(|| lent[i].step(QUERY, 7, 0, ids[i])))),
        ("a plain loop with the same tests", Box::new(|i| timed(|| (plain::judge(black_box(&states[i])), plain::length_of(states[i].table(7), ids[i]))))),
        ("reading the words once", Box::new(|i| timed(|| plain::read_once(black_box(&states[i]))))),
    ];
    measure(rows, "query in the largest state (16 x 2,048 entries, 1,024 slots)", "µs", 1000.0, INPUTS, rounds, contenders);
}

// Steps that change site 0 of the largest state; what they changed is put back between the calls, and not timed.
fn updates(rows: &mut Vec<Row>, rounds: usize) {
    let mut r = Random(2);
    let before: Vec<State> = (0..INPUTS).map(|_| largest_state(&mut r, 1)).collect();
    let new: Vec<u64> = before.iter().map(|s| s.table(0)[2 * r.below(2046) as usize] + 1).collect();
    let put_back = |s: &mut State, from: &State| {
        s.table_mut(0).copy_from_slice(from.table(0));
        s.slots[0] = from.slots[0];
        s.ledger = from.ledger;
    };
    let add = |s: &mut State, id: u64| plain::judge(black_box(s)) && plain::length_of(s.table(0), id) % 2 == 0 && plain::put(s.table_mut(0), id, 1);
    let deliver = |s: &mut State| plain::deliver(black_box(s), 0);
    let remove = |s: &mut State, id: u64| {
        let length = plain::length_of(s.table(0), id);
        plain::judge(black_box(s)) && (length % 2 == 0 || plain::put(s.table_mut(0), id, length + 1))
    };
    let (mut a, mut b) = (before.clone(), before.clone());
    for i in 0..INPUTS {
        assert_eq!(a[i].step(ADD, 0, 0, new[i]), (0, 1));
        assert!(add(&mut b[i], new[i]));
        assert!(a[i].words == b[i].words);
        put_back(&mut a[i], &before[i]);
        put_back(&mut b[i], &before[i]);
        assert_eq!(a[i].step(DELIVER, 0, 0, 0).0, 0);
        assert!(deliver(&mut b[i]));
        assert!(a[i] == b[i]);
        put_back(&mut a[i], &before[i]);
        put_back(&mut b[i], &before[i]);
    }
    let same = "a plain loop with the same tests, binary search and a shift";
    measure(rows, "add of a new id, largest state", "µs", 1000.0, INPUTS, rounds, vec![
        ("library", Box::new(|i| { put_back(&mut a[i], &before[i]); timed(|| a[i].step(ADD, 0, 0, new[i])) })),
        (same, Box::new(|i| { put_back(&mut b[i], &before[i]); timed(|| add(&mut b[i], new[i])) })),
    ]);
    measure(rows, "remove, largest state", "µs", 1000.0, INPUTS, rounds, vec![
        ("library", Box::new(|i| { put_back(&mut a[i], &before[i]); timed(|| a[i].step(REMOVE, 0, 0, new[i] - 1)) })),
        (same, Box::new(|i| { put_back(&mut b[i], &before[i]); timed(|| remove(&mut b[i], new[i] - 1)) })),
    ]);
    measure(rows, "deliver of a new id, largest state", "µs", 1000.0, INPUTS, rounds, vec![
        ("library", Box::new(|i| { put_back(&mut a[i], &before[i]); timed(|| a[i].step(DELIVER, 0, 0, 0)) })),
        (same, Box::new(|i| { put_back(&mut b[i], &before[i]); timed(|| deliver(&mut b[i])) })),
    ]);
}

// How many ids each of two sites has alone, and how many both have.
#[derive(Clone, Copy)]
struct Shares {
    target: usize,
    source: usize,
    common: usize,
}

impl Shares {
    fn all(self) -> usize {
        self.target + self.source + self.common
    }
}

// Two sites whose ids come in random turns.
fn two_tables(r: &mut Random, capacity: usize, shares: Shares) -> State {
    let Shares { target: target_only, source: source_only, common } = shares;
    let mut s = State::fresh(2, capacity, 0);
    let all = rising_ids(r, shares.all(), 1 << 40);
    let mut of = vec![0u8; target_only];
    of.extend(vec![1; source_only]);
    of.extend(vec![2; common]);
    r.shuffle(&mut of);
    for site in 0..2u8 {
        let ids: Vec<u64> = all.iter().zip(&of).filter(|(_, o)| **o == 2 || **o == site).map(|(id, _)| *id).collect();
        lay(s.table_mut(site as usize), &ids, r);
    }
    s
}

// Site 1's table into site 0's. `per` is how many units one merge does. The shorter the tables, the more of them take turns: of 16 merges of 256 entries a
// predictor knows every jump by heart after a few rounds.
fn merging(rows: &mut Vec<Row>, rounds: usize, job: &str, unit: &'static str, per: f64, capacity: usize, shares: Shares) {
    let mut r = Random(3);
    let before: Vec<State> = (0..16 * 2048 / capacity).map(|_| two_tables(&mut r, capacity, shares)).collect();
    let plain_merge = |s: &mut State| {
        let (target, source) = s.words.split_at_mut(2 * capacity);
        plain::merge(target, source)
    };
    let (mut a, mut b, mut c) = (before.clone(), before.clone(), before.clone());
    for i in 0..before.len() {
        let (refusal, rose) = a[i].step(MERGE, 1, 0, 0);
        assert_eq!((refusal, Some(rose)), (0, plain_merge(&mut b[i])));
        assert!(a[i].words == b[i].words);
    }
    measure(rows, job, unit, per, before.len(), rounds, vec![
        ("library", Box::new(|i| { a[i].words.copy_from_slice(&before[i].words); timed(|| a[i].step(MERGE, 1, 0, 0)) })),
        ("a plain loop with the same tests, then two pointers into a fresh buffer", Box::new(|i| {
            b[i].words.copy_from_slice(&before[i].words);
            timed(|| (plain::judge(black_box(&b[i])), plain_merge(&mut b[i])))
        })),
        ("two pointers into a fresh buffer alone, nothing judged", Box::new(|i| {
            c[i].words.copy_from_slice(&before[i].words);
            timed(|| plain_merge(&mut c[i]))
        })),
    ]);
}

fn merges(rows: &mut Vec<Row>, rounds: usize) {
    let just_fit = Shares { target: 683, source: 683, common: 682 };
    merging(rows, rounds, "merge of two tables that just fit (1,365 ids each, half of them common)", "µs", 1000.0, 2048, just_fit);
    merging(rows, rounds, "merge of two nearly equal tables (2,040 entries, 8 new)", "µs", 1000.0, 2048, Shares { target: 0, source: 8, common: 2040 });
    // what an entry of the merged table costs must not grow with the table
    for (capacity, job) in [(256, "merge that just fits 256 entries"), (512, "merge that just fits 512 entries"),
                            (1024, "merge that just fits 1,024 entries"), (2048, "merge that just fits 2,048 entries")] {
        let third = capacity / 3;
        merging(rows, rounds, job, "ns per entry", capacity as f64, capacity, Shares { target: third, source: third, common: capacity - 2 * third });
    }
}

fn membership(rows: &mut Vec<Row>, rounds: usize, job: &str, shuffled: bool) {
    let mut r = Random(4);
    let mut tables = Vec::new();
    let mut asked = Vec::new();
    for _ in 0..INPUTS {
        let all = rising_ids(&mut r, 4096, 1 << 40);
        let mut held: Vec<u64> = all.clone();
        r.shuffle(&mut held);
        held.truncate(2048);
        held.sort();
        let mut table = vec![0; 4096];
        lay(&mut table, &held, &mut r);
        tables.push(table);
        let mut ids = all;
        if shuffled {
            r.shuffle(&mut ids);
        }
        asked.push(ids);
    }
    let maps: Vec<_> = tables.iter().map(|t| plain::map_of(t)).collect();
    let (mut a, mut b) = ([0u8; 512], [0u8; 512]);
    for i in 0..INPUTS {
        assert_eq!(ffi::members(&tables[i], &asked[i], &mut a), 0);
        plain::members(&tables[i], &asked[i], &mut b);
        assert!(a == b);
        plain::members_by_map(&maps[i], &asked[i], &mut b);
        assert!(a == b);
    }
    measure(rows, job, "µs", 1000.0, INPUTS, rounds, vec![
        ("library", Box::new(|i| timed(|| ffi::members(&tables[i], &asked[i], black_box(&mut [0; 512]))))),
        ("binary search for each id", Box::new(|i| timed(|| plain::members(&tables[i], &asked[i], black_box(&mut [0; 512]))))),
        ("a hash map made before", Box::new(|i| timed(|| plain::members_by_map(&maps[i], &asked[i], black_box(&mut [0; 512]))))),
        ("a hash map made in the call", Box::new(|i| timed(|| plain::members_by_map(&plain::map_of(&tables[i]), &asked[i], black_box(&mut [0; 512]))))),
    ]);
}

fn some_step(r: &mut Random, small: bool) -> [u64; 4] {
    let number = |r: &mut Random, few: u64| if small { r.below(few) } else { r.draw() >> r.below(64) };
    match 1 + r.below(8) {
        kind @ 1..=3 => [kind, number(r, 3), 0, number(r, 12)],
        4 => [4, number(r, 3), number(r, 3), number(r, 12)],
        5 => [5, number(r, 3), number(r, 3), 0],
        kind => [kind, number(r, 6), 0, 0],
    }
}

fn line(n: [u64; 4]) -> Vec<u8> {
    let mut buffer = [0; 83];
    let k = ffi::write_line(n, &mut buffer);
    buffer[..k].to_vec()
}

// The same line as a partner writes it, with its id in 20 digits.
fn partner_line(n: [u64; 4]) -> Vec<u8> {
    let text = String::from_utf8(line(n)).unwrap();
    match text.split_once(" id=") {
        Some((front, _)) => format!("{front} id={:020}", n[3]).into_bytes(),
        None => text.into_bytes(),
    }
}

fn bytes_of(texts: &[Vec<Vec<u8>>]) -> f64 {
    texts.iter().flatten().map(|t| t.len()).sum::<usize>() as f64 / INPUTS as f64
}

fn reading(rows: &mut Vec<Row>, rounds: usize, job: &str, steps: &[Vec<[u64; 4]>], texts: &[Vec<Vec<u8>>]) {
    for (n, t) in steps.iter().flatten().zip(texts.iter().flatten()) {
        let mut area = [0; 32];
        assert_eq!((ffi::read_line(t, &mut area), plain::read_line(t), plain::read_line_into_list(t)), (0, Some(*n), Some(*n)));
    }
    measure(rows, job, "ns per byte", bytes_of(texts), INPUTS, rounds, vec![
        ("library", Box::new(|i| timed(|| for t in &texts[i] { ffi::read_line(t, black_box(&mut [0; 32])); }))),
        ("split and parse, no allocation", Box::new(|i| timed(|| for t in &texts[i] { black_box(plain::read_line(t)); }))),
        ("split and parse into a list", Box::new(|i| timed(|| for t in &texts[i] { black_box(plain::read_line_into_list(t)); }))),
    ]);
}

fn lines(rows: &mut Vec<Row>, rounds: usize) {
    let mut r = Random(5);
    let mut some_steps = |small| -> Vec<Vec<[u64; 4]>> { (0..INPUTS).map(|_| (0..512).map(|_| some_step(&mut r, small)).collect()).collect() };
    let steps = some_steps(false);
    let texts: Vec<Vec<Vec<u8>>> = steps.iter().map(|list| list.iter().map(|n| line(*n)).collect()).collect();
    reading(rows, rounds, "reading step lines", &steps, &texts);
    let partners = some_steps(true);
    let padded: Vec<Vec<Vec<u8>>> = partners.iter().map(|list| list.iter().map(|n| partner_line(*n)).collect()).collect();
    reading(rows, rounds, "reading step lines, ids padded to 20 digits", &partners, &padded);
    for (n, t) in steps.iter().flatten().zip(texts.iter().flatten()) {
        let mut buffer = [0; 83];
        assert_eq!(plain::write_line(*n, &mut buffer), t.len());
        assert_eq!(&buffer[..t.len()], &t[..]);
    }
    measure(rows, "writing step lines", "ns per byte", bytes_of(&texts), INPUTS, rounds, vec![
        ("library", Box::new(|i| timed(|| for n in &steps[i] { ffi::write_line(*n, black_box(&mut [0; 83])); }))),
        ("write!", Box::new(|i| timed(|| for n in &steps[i] { plain::write_line(*n, black_box(&mut [0; 83])); }))),
    ]);
}

fn reports(rows: &mut Vec<Row>, rounds: usize) {
    let mut r = Random(6);
    let texts: Vec<Vec<u8>> = (0..INPUTS)
        .map(|_| {
            let mut text = Vec::new();
            while text.len() < 32_768 {
                text.extend(line(some_step(&mut r, true)));
                text.push(10);
            }
            text.truncate(32_768);
            text
        })
        .collect();
    let mut out = vec![0; 721_152];
    for t in &texts {
        let n = ffi::report(t, &mut out);
        assert!(out[..n] == plain::report(t)[..]);
    }
    measure(rows, "a report on 32,768 bytes", "ns per byte", 32_768.0, INPUTS, rounds, vec![
        ("library", Box::new(|i| timed(|| ffi::report(&texts[i], black_box(&mut out))))),
        ("split and parse, ordered maps and write!", Box::new(|i| timed(|| plain::report(&texts[i])))),
    ]);
}

pub fn all(rows: &mut Vec<Row>, rounds: usize) {
    judging(rows, rounds);
    links::all(rows, rounds);
    updates(rows, rounds);
    merges(rows, rounds);
    membership(rows, rounds, "membership of 4,096 rising ids", false);
    membership(rows, rounds, "membership of 4,096 shuffled ids", true);
    lines(rows, rounds);
    reports(rows, rounds);
}
