// Bursts of 1,000 steps in the largest state.
use crate::ffi::{State, ADD, AGAIN, DELIVER, LOSE, QUERY, REMOVE, SEND};
use crate::jobs::{lay, rising_ids};
use crate::maps::Kept;
use crate::{measure, timed, Random, Row};
use std::collections::{BTreeMap, HashMap};
use std::hint::black_box;

const STEPS: usize = 1000;
const INPUTS: usize = 4;
const HELD: usize = 1900; // entries of each table, so that there is room for new ones

type InOrder = Kept<BTreeMap<u64, u64>, 16, 1024, 2048>;
type Hashed = Kept<HashMap<u64, u64>, 16, 1024, 2048>;

struct Burst {
    before: State,
    asks: Vec<u64>,
}

fn held_id(r: &mut Random, s: &State, site: u64) -> u64 {
    s.table(site as usize)[2 * r.below(HELD as u64) as usize]
}

// As often new to the site as not.
fn some_id(r: &mut Random, s: &State, site: u64) -> u64 {
    held_id(r, s, site) + r.below(2)
}

fn state_with_free_slots(r: &mut Random) -> State {
    let mut s = State::fresh(16, 2048, 1024);
    for site in 0..16 {
        let ids = rising_ids(r, HELD, 1 << 40);
        lay(s.table_mut(site), &ids, r);
    }
    s
}

// Half of the slots wait.
fn state_under_way(r: &mut Random) -> State {
    let mut s = state_with_free_slots(r);
    for k in 0..s.slots.len() {
        if r.below(2) == 0 {
            let site = r.below(16);
            let (sender, id, length) = (other_site(r, site), some_id(r, &s, site), 1 + r.below(5));
            s.under_way(k, sender, site, id, length);
        }
    }
    s
}

const SHARES: [(u64, u64); 7] = [(QUERY, 35), (ADD, 25), (REMOVE, 15), (SEND, 9), (DELIVER, 9), (LOSE, 5), (AGAIN, 2)];

fn some_kind(r: &mut Random) -> u64 {
    let mut left = r.below(100);
    for (kind, share) in SHARES {
        if left < share {
            return kind;
        }
        left -= share;
    }
    unreachable!("the shares are 100 together")
}

fn other_site(r: &mut Random, site: u64) -> u64 {
    (site + 1 + r.below(15)) % 16
}

fn mixed_ask(r: &mut Random, s: &State) -> [u64; 4] {
    let site = r.below(16);
    match some_kind(r) {
        SEND => [SEND, site, other_site(r, site), some_id(r, s, site)],
        kind @ (DELIVER | LOSE | AGAIN) => [kind, r.below(1024), 0, 0],
        kind => [kind, site, 0, some_id(r, s, site)],
    }
}

fn send_ask(r: &mut Random, s: &State) -> [u64; 4] {
    let site = r.below(16);
    [SEND, site, other_site(r, site), held_id(r, s, site)]
}

fn some_burst(r: &mut Random, state: fn(&mut Random) -> State, ask: fn(&mut Random, &State) -> [u64; 4]) -> Burst {
    let before = state(r);
    let asks = (0..STEPS).flat_map(|_| ask(r, &before)).collect();
    Burst { before, asks }
}

// Each step in a call of its own.
pub fn one_by_one(s: &mut State, asks: &[u64], answers: &mut [u64]) {
    for (ask, answer) in asks.as_chunks::<4>().0.iter().zip(answers.as_chunks_mut::<2>().0) {
        let (refusal, value) = s.step(ask[0], ask[1], ask[2], ask[3]);
        *answer = [refusal as u64, value];
    }
}

// All contenders give the same answers and leave the same run.
fn compare(b: &Burst) {
    let (mut at_once, mut single) = (b.before.clone(), b.before.clone());
    let (mut in_order, mut hashed) = (InOrder::of(&b.before), Hashed::of(&b.before));
    let mut answers = [[0; 2 * STEPS]; 4];
    assert_eq!(at_once.burst(&b.asks, &mut answers[0]), 0);
    one_by_one(&mut single, &b.asks, &mut answers[1]);
    in_order.burst(&b.asks, &mut answers[2]);
    hashed.burst(&b.asks, &mut answers[3]);
    assert!(answers.iter().all(|a| *a == answers[0]));
    assert!(at_once == single);
    assert!(in_order == InOrder::of(&at_once));
    assert!(hashed == Hashed::of(&at_once));
}

fn against_all(rows: &mut Vec<Row>, rounds: usize, job: &str, bursts: &[Burst]) {
    bursts.iter().for_each(compare);
    let mut at_once: Vec<State> = bursts.iter().map(|b| b.before.clone()).collect();
    let mut single = at_once.clone();
    let in_order: Vec<InOrder> = at_once.iter().map(InOrder::of).collect();
    let hashed: Vec<Hashed> = at_once.iter().map(Hashed::of).collect();
    measure(rows, job, "µs", 1000.0, bursts.len(), rounds, vec![
        ("library", Box::new(|i| {
            at_once[i].put_back(&bursts[i].before);
            timed(|| at_once[i].burst(&bursts[i].asks, black_box(&mut [0; 2 * STEPS])))
        })),
        ("1,000 calls of wg_step", Box::new(|i| {
            single[i].put_back(&bursts[i].before);
            timed(|| one_by_one(&mut single[i], &bursts[i].asks, black_box(&mut [0; 2 * STEPS])))
        })),
        ("an ordered map for each site, nothing judged", Box::new(|i| {
            let mut kept = in_order[i].clone();
            timed(|| kept.burst(&bursts[i].asks, black_box(&mut [0; 2 * STEPS])))
        })),
        ("a hash map for each site, nothing judged", Box::new(|i| {
            let mut kept = hashed[i].clone();
            timed(|| kept.burst(&bursts[i].asks, black_box(&mut [0; 2 * STEPS])))
        })),
    ]);
}

pub fn all(rows: &mut Vec<Row>, rounds: usize) {
    let mut r = Random(8);
    let mixed: Vec<Burst> = (0..INPUTS).map(|_| some_burst(&mut r, state_under_way, mixed_ask)).collect();
    against_all(rows, rounds, "1,000 mixed steps in the largest state, one burst", &mixed);
    let sends: Vec<Burst> = (0..INPUTS).map(|_| some_burst(&mut r, state_with_free_slots, send_ask)).collect();
    against_all(rows, rounds, "1,000 sends that fill 1,024 free slots, one burst", &sends);
}
