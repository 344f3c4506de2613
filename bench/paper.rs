// The first experiment of section 6 of the paper: 10 instances start with 1,000 elements each of 2,000; an iteration makes 2 to 5 random
// updates at each of 2 to 5 instances, and all instances then merge these updates; 500 updates in all, a fraction of them removals.
// It is run three times, with the updates travelling alone (send and deliver), with the same steps in bursts, and with whole tables merged, each
// time against a causal-length set in a hash map. Which updates are made is worked out before, so that only the set's own work is timed.
use crate::ffi::{State, ADD, DELIVER, MERGE, REMOVE, SEND};
use crate::{measure, timed, Contender, Random, Row};
use std::collections::HashMap;

const INSTANCES: usize = 10;
const RUNS: usize = 2;

struct Update {
    at: usize,
    id: u64,
    add: bool,
}

struct Script {
    ids: Vec<u64>, // 2,000, rising; the first 1,000 drawn are there at the start
    start: Vec<u64>,
    iterations: Vec<Vec<Update>>,
}

fn script(r: &mut Random, removals: u64) -> Script {
    let mut ids: Vec<u64> = (0..2000).map(|_| r.draw()).collect();
    ids.sort();
    let mut drawn: Vec<usize> = (0..2000).collect();
    r.shuffle(&mut drawn);
    let mut lengths = vec![vec![0u64; 2000]; INSTANCES];
    for k in &drawn[..1000] {
        lengths.iter_mut().for_each(|l| l[*k] = 1);
    }
    let start = lengths[0].clone();
    let (mut iterations, mut made) = (Vec::new(), 0);
    while made < 500 {
        let mut updates = Vec::new();
        for _ in 0..2 + r.below(4) {
            let at = r.below(INSTANCES as u64) as usize;
            for _ in 0..2 + r.below(4) {
                let add = r.below(100) >= removals;
                let k = loop {
                    let k = r.below(2000) as usize;
                    if (lengths[at][k] % 2 == 0) == add {
                        break k;
                    }
                };
                lengths[at][k] += 1;
                updates.push(Update { at, id: ids[k], add });
            }
        }
        made += updates.len();
        let most: Vec<u64> = (0..2000).map(|k| lengths.iter().map(|l| l[k]).max().unwrap()).collect();
        lengths.iter_mut().for_each(|l| l.copy_from_slice(&most));
        iterations.push(updates);
    }
    Script { ids, start, iterations }
}

fn tables(s: &Script) -> State {
    let mut state = State::fresh(INSTANCES, 2048, 64);
    for site in 0..INSTANCES {
        let table = state.table_mut(site);
        let held = s.ids.iter().zip(&s.start).filter(|(_, l)| **l > 0);
        for (k, (id, length)) in held.enumerate() {
            table[2 * k] = *id;
            table[2 * k + 1] = *length;
        }
    }
    state
}

fn maps(s: &Script) -> Vec<HashMap<u64, u64>> {
    let one: HashMap<u64, u64> = s.ids.iter().zip(&s.start).filter(|(_, l)| **l > 0).map(|(id, l)| (*id, *l)).collect();
    vec![one; INSTANCES]
}

fn kind(u: &Update) -> u64 {
    if u.add { ADD } else { REMOVE }
}

fn others(u: &Update) -> impl Iterator<Item = usize> {
    let at = u.at;
    (0..INSTANCES).filter(move |to| *to != at)
}

fn local(state: &mut State, u: &Update) {
    let (refusal, _) = state.step(kind(u), u.at as u64, 0, u.id);
    assert_eq!(refusal, 0);
}

fn library_updates(state: &mut State, s: &Script) {
    for updates in &s.iterations {
        updates.iter().for_each(|u| local(state, u));
        for u in updates {
            for to in others(u) {
                let (refusal, slot) = state.step(SEND, u.at as u64, to as u64, u.id);
                assert_eq!(refusal, 0);
                state.step(DELIVER, slot, 0, 0);
            }
        }
    }
}

// Steps that wait for the next burst.
#[derive(Default)]
struct Queue {
    asks: Vec<u64>,
    answers: Vec<u64>,
}

impl Queue {
    fn push(&mut self, ask: [u64; 4]) {
        self.asks.extend(ask);
    }

    // Takes all of them in one call; each must be accepted.
    fn drain(&mut self, state: &mut State) {
        self.answers.resize(self.asks.len() / 2, 0);
        assert_eq!(state.burst(&self.asks, &mut self.answers), 0);
        assert!(self.answers.iter().step_by(2).all(|refusal| *refusal == 0));
        self.asks.clear();
    }
}

// The same steps in the same order, one burst for each iteration. No parcel waits between two iterations, so that each takes slot 0 and leaves it free.
fn library_bursts(state: &mut State, s: &Script) {
    let mut queue = Queue::default();
    for updates in &s.iterations {
        updates.iter().for_each(|u| queue.push([kind(u), u.at as u64, 0, u.id]));
        for u in updates {
            for to in others(u) {
                queue.push([SEND, u.at as u64, to as u64, u.id]);
                queue.push([DELIVER, 0, 0, 0]);
            }
        }
        queue.drain(state);
    }
}

// Everyone's table into the first, and the first into all others.
fn library_tables(state: &mut State, s: &Script) {
    for updates in &s.iterations {
        updates.iter().for_each(|u| local(state, u));
        let mut from: Vec<usize> = updates.iter().map(|u| u.at).filter(|at| *at != 0).collect();
        from.sort();
        from.dedup();
        from.iter().for_each(|site| assert_eq!(state.step(MERGE, *site as u64, 0, 0).0, 0));
        (1..INSTANCES as u64).for_each(|site| assert_eq!(state.step(MERGE, 0, site, 0).0, 0));
    }
}

fn local_map(map: &mut HashMap<u64, u64>, u: &Update) {
    let length = map.entry(u.id).or_insert(0);
    if (*length % 2 == 0) == u.add {
        *length += 1;
    }
}

fn map_updates(maps: &mut [HashMap<u64, u64>], s: &Script) {
    for updates in &s.iterations {
        updates.iter().for_each(|u| local_map(&mut maps[u.at], u));
        for u in updates {
            let length = maps[u.at][&u.id];
            for to in others(u) {
                let theirs = maps[to].entry(u.id).or_insert(0);
                *theirs = (*theirs).max(length);
            }
        }
    }
}

fn merge_map(from: usize, to: usize, maps: &mut [HashMap<u64, u64>]) {
    let source = std::mem::take(&mut maps[from]);
    for (id, length) in &source {
        let theirs = maps[to].entry(*id).or_insert(0);
        *theirs = (*theirs).max(*length);
    }
    maps[from] = source;
}

fn map_tables(maps: &mut [HashMap<u64, u64>], s: &Script) {
    for updates in &s.iterations {
        updates.iter().for_each(|u| local_map(&mut maps[u.at], u));
        let mut from: Vec<usize> = updates.iter().map(|u| u.at).filter(|at| *at != 0).collect();
        from.sort();
        from.dedup();
        from.iter().for_each(|site| merge_map(*site, 0, maps));
        (1..INSTANCES).for_each(|site| merge_map(0, site, maps));
    }
}

// Every instance's table is the map's, id by id.
fn same(state: &State, maps: &[HashMap<u64, u64>]) {
    for site in 0..INSTANCES {
        let held: HashMap<u64, u64> = crate::plain::map_of(state.table(site));
        assert!(held == maps[site]);
    }
}

pub fn all(rows: &mut Vec<Row>, rounds: usize) {
    let mut r = Random(7);
    for removals in [0, 10, 20, 30, 40, 50] {
        let scripts: Vec<Script> = (0..RUNS).map(|_| script(&mut r, removals)).collect();
        for s in &scripts {
            let (mut state, mut in_bursts, mut map) = (tables(s), tables(s), maps(s));
            library_updates(&mut state, s);
            library_bursts(&mut in_bursts, s);
            map_updates(&mut map, s);
            same(&state, &map);
            same(&in_bursts, &map);
            let (mut state, mut map) = (tables(s), maps(s));
            library_tables(&mut state, s);
            map_tables(&mut map, s);
            same(&state, &map);
        }
        let run_library = |work: fn(&mut State, &Script), s: &Script| { let mut state = tables(s); timed(|| work(&mut state, s)) };
        let run_map = |work: fn(&mut [HashMap<u64, u64>], &Script), s: &Script| { let mut map = maps(s); timed(|| work(&mut map, s)) };
        let against = "a causal-length set in a hash map";
        let contenders: Vec<Contender> = vec![
            ("library", Box::new(|i| run_library(library_updates, &scripts[i]))),
            (against, Box::new(|i| run_map(map_updates, &scripts[i]))),
        ];
        measure(rows, &format!("the paper's benchmark, single updates, {removals} % removals"), "ms", 1e6, RUNS, rounds, contenders);
        let contenders: Vec<Contender> = vec![
            ("library", Box::new(|i| run_library(library_bursts, &scripts[i]))),
            (against, Box::new(|i| run_map(map_updates, &scripts[i]))),
        ];
        measure(rows, &format!("the paper's benchmark, single updates in bursts, {removals} % removals"), "ms", 1e6, RUNS, rounds, contenders);
        let contenders: Vec<Contender> = vec![
            ("library", Box::new(|i| run_library(library_tables, &scripts[i]))),
            (against, Box::new(|i| run_map(map_tables, &scripts[i]))),
        ];
        measure(rows, &format!("the paper's benchmark, whole tables, {removals} % removals"), "ms", 1e6, RUNS, rounds, contenders);
    }
}
