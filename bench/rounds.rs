// Repair rounds of 16 tables whose union takes all 2,048 places: nearly equal, with nothing in common, in between, and equal already; one that is
// refused for a single id; and rounds in a small state. A round levels its tables, so they are put back before each, which is not timed.
use crate::bursts::one_by_one;
use crate::ffi::{State, MERGE};
use crate::jobs::{half_under_way, rising_ids};
use crate::{measure, plain, timed, Contender, Random, Row};
use std::hint::black_box;

const PLAIN: &str = "a plain loop with the same tests, two pointers into fresh buffers, then copies";
const INPUTS: usize = 16;
const SMALL: usize = 32; // states of each small input: one round is over sooner than a clock can tell
const SMALL_INPUTS: usize = 64; // with fewer a predictor knows by heart the jumps of rounds so short
const ANSWERS: usize = 60; // words of the answers to the 30 merges of 16 sites

// How many ids all sites have, how many each has alone, and how many of 1,000 lengths of a site are one above what the others have.
#[derive(Clone, Copy)]
struct Shares {
    common: usize,
    own: usize,
    raised: u64,
}

// Fills a fresh state; the ids come in random turns.
fn shared_out(r: &mut Random, mut s: State, shares: Shares) -> State {
    let sites = s.sites as usize;
    let mut of: Vec<usize> = (0..sites).flat_map(|site| vec![site; shares.own]).collect();
    of.extend(vec![sites; shares.common]); // no site has this number: they are of all
    r.shuffle(&mut of);
    let all: Vec<[u64; 2]> = rising_ids(r, of.len(), 1 << 40).iter().map(|id| [*id, 1 + r.below(5)]).collect();
    for site in 0..sites {
        let its = all.iter().zip(&of).filter(|(_, o)| **o == site || **o == sites);
        let entries: Vec<u64> = its.flat_map(|(e, _)| [e[0], e[1] + (r.below(1000) < shares.raised) as u64]).collect();
        s.table_mut(site)[..entries.len()].copy_from_slice(&entries);
    }
    half_under_way(r, &mut s);
    s
}

// An input is a list of states that take one round each.
fn large(shares: Shares) -> Vec<Vec<State>> {
    let mut r = Random(12);
    (0..INPUTS).map(|_| vec![shared_out(&mut r, State::fresh(16, 2048, 1024), shares)]).collect()
}

fn small(shares: Shares) -> Vec<Vec<State>> {
    let mut r = Random(13);
    let mut some = || (0..SMALL).map(|_| shared_out(&mut r, State::fresh(3, 8, 8), shares)).collect();
    (0..SMALL_INPUTS).map(|_| some()).collect()
}

// The merges that a round stands for: site 0 takes in the others in rising order, then each of them takes in site 0.
fn merges(sites: u64) -> Vec<u64> {
    let inwards = (1..sites).flat_map(|site| [MERGE, site, 0, 0]);
    let outwards = (1..sites).flat_map(|site| [MERGE, 0, site, 0]);
    inwards.chain(outwards).collect()
}

// The library and the plain round give this answer and leave the same run: equal tables without a free place, or what there was.
fn compare(before: &State, answer: Result<u64, u32>) {
    let (mut a, mut b) = (before.clone(), before.clone());
    assert_eq!((a.repair(), plain::repair(&mut b)), (answer, answer));
    assert!(a == b);
    match answer {
        Ok(_) => assert!((0..a.sites as usize).all(|site| a.table(site) == a.table(0)) && plain::used(a.table(0)) == a.capacity as usize),
        Err(_) => assert!(a == *before),
    }
}

// A rival that refused less would have less to do.
fn refused_alike(before: &State) {
    let with = |change: fn(&mut State)| {
        let mut s = before.clone();
        change(&mut s);
        compare(&s, Err(2));
    };
    with(|s| s.words[2] = s.words[0]);
    with(|s| *s.words.last_mut().unwrap() = 1 << 32);
    with(|s| s.slots[0].sender = s.slots[0].site as u32);
    with(|s| s.ledger.sent += 1);
    with(|s| (s.ledger.pairs[1][0].heard, s.ledger.pairs[1][0].unheard) = (1, 1));
}

// The merges by hand, in calls of their own and in a burst, are all accepted and leave what the round leaves.
fn compare_merges(before: &State, asks: &[u64]) {
    let (mut round, mut single, mut at_once) = (before.clone(), before.clone(), before.clone());
    let mut answers = [[0; ANSWERS]; 2];
    one_by_one(&mut single, asks, &mut answers[0]);
    assert_eq!((round.repair(), at_once.burst(asks, &mut answers[1])), (Ok(asks.len() as u64 / 4), 0));
    assert!(answers[0] == answers[1] && answers[0].as_chunks::<2>().0.iter().all(|a| a[0] == 0));
    assert!(round == single && round == at_once);
}

// One contender: puts the states of an input back, then times a round in each.
fn in_each<'a>(inputs: &'a [Vec<State>], round: impl Fn(&mut State) + 'a) -> Box<dyn FnMut(usize) -> f64 + 'a> {
    let mut lent = inputs[0].clone();
    Box::new(move |i| {
        lent.iter_mut().zip(&inputs[i]).for_each(|(s, before)| s.put_back(before));
        timed(|| lent.iter_mut().for_each(&round))
    })
}

struct Job {
    name: &'static str,
    unit: &'static str,
    units: f64, // of one round
    inputs: Vec<Vec<State>>,
    answer: Result<u64, u32>,
    by_hand: Option<[&'static str; 2]>, // what its merges are called as calls of their own and as a burst, where they are measured too
}

fn level(rows: &mut Vec<Row>, rounds: usize, job: &Job) {
    let inputs = &job.inputs;
    let asks = merges(inputs[0][0].sites);
    inputs.iter().flatten().for_each(|before| compare(before, job.answer));
    refused_alike(&inputs[0][0]);
    let mut contenders: Vec<Contender> = vec![
        ("library", in_each(inputs, |s| { let _ = black_box(s.repair()); })),
        (PLAIN, in_each(inputs, |s| { let _ = black_box(plain::repair(black_box(s))); })),
    ];
    if let Some([single, burst]) = job.by_hand {
        inputs.iter().flatten().for_each(|before| compare_merges(before, &asks));
        contenders.push((single, in_each(inputs, |s| one_by_one(s, &asks, black_box(&mut [0; ANSWERS])))));
        contenders.push((burst, in_each(inputs, |s| { black_box(s.burst(&asks, black_box(&mut [0; ANSWERS]))); })));
    }
    measure(rows, job.name, job.unit, job.units * inputs[0].len() as f64, inputs.len(), rounds, contenders);
}

fn among_16(name: &'static str, shares: Shares, answer: Result<u64, u32>, by_hand: bool) -> Job {
    let by_hand = by_hand.then_some(["30 calls of wg_merge", "the 30 merges in one burst"]);
    Job { name, unit: "µs", units: 1000.0, inputs: large(shares), answer, by_hand }
}

fn among_3(name: &'static str, shares: Shares) -> Job {
    Job { name, unit: "ns", units: 1.0, inputs: small(shares), answer: Ok(4), by_hand: Some(["4 calls of wg_merge", "the 4 merges in one burst"]) }
}

pub fn all(rows: &mut Vec<Row>, rounds: usize) {
    let mut run = |job: Job| level(rows, rounds, &job);
    let nearly = Shares { common: 2016, own: 2, raised: 10 };
    run(among_16("repair round of 16 nearly equal tables (2,018 ids each, 2 of them its own)", nearly, Ok(30), true));
    run(among_16("repair round of 16 tables that just fit (128 ids each, all its own)", Shares { common: 0, own: 128, raised: 0 }, Ok(30), true));
    run(among_16("repair round of 16 tables that just fit (1,088 ids each, 64 of them its own)", Shares { common: 1024, own: 64, raised: 100 }, Ok(30), false));
    run(among_16("repair round of 16 equal tables (2,048 ids)", Shares { common: 2048, own: 0, raised: 0 }, Ok(30), false));
    run(among_16("repair round of 16 tables that is refused (one id too many)", Shares { common: 2017, ..nearly }, Err(8), false));
    run(among_3("repair round in a small state (3 x 8 entries, 8 slots)", Shares { common: 2, own: 2, raised: 100 }));
}
