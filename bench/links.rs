// Steps in the smallest state that anyone runs, that of the report (3 sites with 8 places, 8 slots), and the lag, there and in the largest state.
// A call in the small state is over sooner than a clock can tell, so many are timed together.
use crate::ffi::{State, DELIVER, QUERY, SEND};
use crate::jobs::{largest_state, lay, rising_ids, INPUTS};
use crate::{measure, plain, timed, Random, Row};
use std::hint::black_box;

const CALLS: usize = 500;

// Six ids at each site, four updates under way in every second slot, something heard from site 0 at site 1.
fn small_state(r: &mut Random) -> State {
    let mut s = State::fresh(3, 8, 8);
    for site in 0..3 {
        let ids = rising_ids(r, 6, 1 << 40);
        lay(s.table_mut(site), &ids, r);
    }
    for slot in [1, 3, 5, 7] {
        let site = r.below(3);
        let id = s.table(site as usize)[0];
        s.under_way(slot, (site + 1 + r.below(2)) % 3, site, id, 1 + r.below(9));
    }
    heard(s)
}

// The same state after an update from site 0 to site 1 arrived, and two more were lost.
fn heard(mut s: State) -> State {
    let id = s.table(0)[0];
    let held = s.table(1)[0];
    for way in 0..3 {
        let slot = s.slots.iter().position(|p| p.length == 0).unwrap();
        s.under_way(slot, 0, 1, if way == 0 { held } else { id }, 1);
        if way == 0 {
            assert!(plain::deliver(&mut s, slot));
        } else {
            s.slots[slot] = Default::default();
            s.ledger.lost += 1;
        }
    }
    s
}

fn queries(rows: &mut Vec<Row>, rounds: usize, states: &[State]) {
    let ids: Vec<u64> = states.iter().map(|s| s.table(2)[4]).collect();
    let mut lent = states.to_vec();
    for i in 0..INPUTS {
        assert!(plain::judge(&states[i]));
        assert_eq!(lent[i].step(QUERY, 2, 0, ids[i]), (0, plain::length_of(states[i].table(2), ids[i])));
    }
    measure(rows, "query in a small state (3 x 8 entries, 8 slots)", "ns", CALLS as f64, INPUTS, rounds, vec![
        ("library", Box::new(|i| timed(|| for _ in 0..CALLS { black_box(lent[i].step(QUERY, 2, 0, ids[i])); }))),
        ("a plain loop with the same tests", Box::new(|i| timed(|| {
            for _ in 0..CALLS {
                black_box((plain::judge(black_box(&states[i])), plain::length_of(states[i].table(2), ids[i])));
            }
        }))),
    ]);
}

// An update that the target knows goes out and arrives, over and over: two steps, and the state is the same but for its counts and serials.
fn library_link(s: &mut State, id: u64) {
    for _ in 0..CALLS / 2 {
        let (_, slot) = s.step(SEND, 0, 1, id);
        black_box(s.step(DELIVER, slot, 0, 0));
    }
}

fn plain_link(s: &mut State, id: u64) {
    for _ in 0..CALLS / 2 {
        let slot = plain::send(black_box(s), 0, 1, id).unwrap();
        black_box(plain::deliver(s, slot));
    }
}

fn link_steps(rows: &mut Vec<Row>, rounds: usize, states: &[State]) {
    let (mut a, mut b) = (states.to_vec(), states.to_vec());
    let ids: Vec<u64> = states.iter().map(|s| s.table(0)[2]).collect();
    for i in 0..INPUTS {
        library_link(&mut a[i], ids[i]);
        plain_link(&mut b[i], ids[i]);
        assert!(a[i] == b[i]);
    }
    measure(rows, "send and deliver in turn, small state, each step", "ns", CALLS as f64, INPUTS, rounds, vec![
        ("library", Box::new(|i| { a[i].put_back(&states[i]); timed(|| library_link(&mut a[i], ids[i])) })),
        ("a plain loop with the same tests, binary search and a shift", Box::new(|i| { b[i].put_back(&states[i]); timed(|| plain_link(&mut b[i], ids[i])) })),
    ]);
}

fn lags(rows: &mut Vec<Row>, rounds: usize, job: &str, unit: &'static str, calls: usize, per: f64, states: &[State]) {
    let mut lent = states.to_vec();
    for i in 0..INPUTS {
        assert_eq!(lent[i].lag(0, 1), (0, plain::lag(&states[i], 0, 1).unwrap()));
        assert!(lent[i].lag(0, 1).1 < 0);
    }
    measure(rows, job, unit, per, INPUTS, rounds, vec![
        ("library", Box::new(|i| timed(|| for _ in 0..calls { black_box(lent[i].lag(0, 1)); }))),
        ("a plain loop with the same tests", Box::new(|i| timed(|| for _ in 0..calls { black_box(plain::lag(black_box(&states[i]), 0, 1)); }))),
    ]);
}

pub fn all(rows: &mut Vec<Row>, rounds: usize) {
    let mut r = Random(9);
    let small: Vec<State> = (0..INPUTS).map(|_| small_state(&mut r)).collect();
    let largest: Vec<State> = (0..INPUTS).map(|_| heard(largest_state(&mut r, 0))).collect();
    queries(rows, rounds, &small);
    link_steps(rows, rounds, &small);
    lags(rows, rounds, "lag in a small state (3 x 8 entries, 8 slots)", "ns", CALLS, CALLS as f64, &small);
    lags(rows, rounds, "lag in the largest state (16 x 2,048 entries, 1,024 slots)", "µs", 1, 1000.0, &largest);
}
