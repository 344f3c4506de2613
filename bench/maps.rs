// A run whose sets are maps of the standard library: the steps and refusals of the library in the plainest safe Rust, with nothing judged.
use crate::ffi::{State, FIRST, LARGEST};
use crate::plain::order;
use std::cmp::Ordering;
use std::collections::{BTreeMap, HashMap};

// The lengths of one site's ids.
pub trait Lengths: Default {
    fn length(&self, id: u64) -> u64;
    fn put(&mut self, id: u64, length: u64);
    fn count(&self) -> usize;
    // Takes over each length of the other that is larger, and says how many were.
    fn join(&mut self, other: &Self) -> u64;
}

macro_rules! lengths_in {
    ($map:ty) => {
        impl Lengths for $map {
            fn length(&self, id: u64) -> u64 {
                self.get(&id).copied().unwrap_or(0)
            }

            fn put(&mut self, id: u64, length: u64) {
                self.insert(id, length);
            }

            fn count(&self) -> usize {
                self.len()
            }

            fn join(&mut self, other: &Self) -> u64 {
                let mut rose = 0;
                for (id, length) in other {
                    let now = self.entry(*id).or_insert(0);
                    rose += (*length > *now) as u64;
                    *now = (*now).max(*length);
                }
                rose
            }
        }
    };
}

lengths_in!(BTreeMap<u64, u64>);
lengths_in!(HashMap<u64, u64>);

#[derive(Clone, Copy, PartialEq)]
struct Waiting {
    site: usize,
    id: u64,
    length: u64,
    sender: usize,
    serial: u32,
}

// What went from one site to another.
#[derive(Clone, Copy, PartialEq)]
struct Link {
    next: u32,
    sent: bool,
    heard: Option<u32>,
}

#[derive(Clone, PartialEq)]
pub struct Kept<M, const SITES: usize, const SLOTS: usize, const CAPACITY: usize> {
    pub sites: [M; SITES],
    slots: [Option<Waiting>; SLOTS],
    pub counts: [u64; 4], // sent, copied, absorbed, lost
    links: [[Link; SITES]; SITES],
}

fn raise(count: &mut u64) -> Result<(), u32> {
    if *count == LARGEST {
        return Err(10);
    }
    *count += 1;
    Ok(())
}

fn is_step(n: &[u64; 4]) -> bool {
    matches!(n, [1..=3, _, 0, _] | [4, ..] | [5, _, _, 0] | [6..=8, _, 0, 0])
}

impl<M: Lengths + Clone, const SITES: usize, const SLOTS: usize, const CAPACITY: usize> Kept<M, SITES, SLOTS, CAPACITY> {
    pub fn fresh(first: u32) -> Self {
        let links = [[Link { next: first, sent: false, heard: None }; SITES]; SITES];
        Kept { sites: std::array::from_fn(|_| M::default()), slots: [None; SLOTS], counts: [0; 4], links }
    }

    pub fn of(s: &State) -> Self {
        let mut k = Self::fresh(FIRST);
        for (site, map) in k.sites.iter_mut().enumerate() {
            let pairs = s.table(site).as_chunks::<2>().0;
            pairs.iter().filter(|pair| pair[1] != 0).for_each(|pair| map.put(pair[0], pair[1]));
        }
        for (slot, p) in k.slots.iter_mut().zip(&s.slots) {
            let waiting = Waiting { site: p.site as usize, id: p.id, length: p.length, sender: p.sender as usize, serial: p.serial };
            *slot = (p.length != 0).then_some(waiting);
        }
        for from in 0..SITES {
            for to in (0..SITES).filter(|to| *to != from) {
                let p = &s.ledger.pairs[from][to];
                k.links[from][to] = Link { next: p.next, sent: p.unsent == 0, heard: (p.unheard == 0).then_some(p.heard) };
            }
        }
        k.counts = [s.ledger.sent, s.ledger.copied, s.ledger.absorbed, s.ledger.lost];
        k
    }

    pub fn waiting(&self) -> usize {
        self.slots.iter().flatten().count()
    }

    fn free(&self) -> Result<usize, u32> {
        self.slots.iter().position(|s| s.is_none()).ok_or(9)
    }

    fn at(&self, slot: u64) -> Result<Waiting, u32> {
        self.slots.get(slot as usize).copied().flatten().ok_or(5)
    }

    // The numbers are those of a step.
    pub fn step(&mut self, n: [u64; 4]) -> Result<u64, u32> {
        let site = |s: u64| if s < SITES as u64 { Ok(s as usize) } else { Err(3u32) };
        match n[0] {
            1..=3 => {
                let map = &mut self.sites[site(n[1])?];
                let now = map.length(n[3]);
                if n[0] == 3 || now % 2 == n[0] % 2 {
                    return Ok(now);
                }
                if now == LARGEST {
                    return Err(7);
                }
                if now == 0 && map.count() == CAPACITY {
                    return Err(8);
                }
                map.put(n[3], now + 1);
                Ok(now + 1)
            }
            4 => {
                let (from, to) = (site(n[1])?, site(n[2])?);
                if from == to {
                    return Err(4);
                }
                let length = self.sites[from].length(n[3]);
                if length == 0 {
                    return Err(6);
                }
                let slot = self.free()?;
                raise(&mut self.counts[0])?;
                let link = &mut self.links[from][to];
                self.slots[slot] = Some(Waiting { site: to, id: n[3], length, sender: from, serial: link.next });
                link.next = link.next.wrapping_add(1);
                link.sent = true;
                Ok(slot as u64)
            }
            5 => {
                let (from, to) = (site(n[1])?, site(n[2])?);
                if from == to {
                    return Err(4);
                }
                let mut joined = self.sites[to].clone();
                let rose = joined.join(&self.sites[from]);
                if joined.count() > CAPACITY {
                    return Err(8);
                }
                self.sites[to] = joined;
                Ok(rose)
            }
            6 => {
                let p = self.at(n[1])?;
                let link = &mut self.links[p.sender][p.site];
                let newer = match link.heard {
                    None => true,
                    Some(heard) => order(p.serial, heard).ok_or(15u32)? == Ordering::Greater,
                };
                let map = &mut self.sites[p.site];
                let now = map.length(p.id);
                if now == 0 && map.count() == CAPACITY {
                    return Err(8);
                }
                raise(&mut self.counts[2])?;
                map.put(p.id, now.max(p.length));
                if newer {
                    link.heard = Some(p.serial);
                }
                self.slots[n[1] as usize] = None;
                Ok(now.max(p.length))
            }
            7 => {
                let p = self.at(n[1])?;
                let slot = self.free()?;
                raise(&mut self.counts[1])?;
                self.slots[slot] = Some(p);
                Ok(slot as u64)
            }
            _ => {
                self.at(n[1])?;
                raise(&mut self.counts[3])?;
                self.slots[n[1] as usize] = None;
                Ok(0)
            }
        }
    }

    // Any numbers, four to an ask, and the refusal and the value for each.
    pub fn burst(&mut self, asks: &[u64], answers: &mut [u64]) {
        for (ask, answer) in asks.as_chunks::<4>().0.iter().zip(answers.as_chunks_mut::<2>().0) {
            let outcome = if is_step(ask) { self.step(*ask) } else { Err(11) };
            *answer = match outcome {
                Ok(value) => [0, value],
                Err(refusal) => [refusal as u64, 0],
            };
        }
    }
}
