// What include/wiregantry.h declares, for the calls that are measured.
#[repr(C)]
#[derive(Clone, Copy, Default, PartialEq)]
pub struct Parcel {
    pub site: u64,
    pub id: u64,
    pub length: u64,
    pub sender: u32,
    pub serial: u32,
}

#[repr(C)]
#[derive(Clone, Copy, Default, PartialEq)]
pub struct Pair {
    pub next: u32,
    pub heard: u32,
    pub unsent: u32,
    pub unheard: u32,
}

#[repr(C)]
#[derive(Clone, Copy, Default, PartialEq)]
pub struct Ledger {
    pub sent: u64,
    pub copied: u64,
    pub absorbed: u64,
    pub lost: u64,
    pub pairs: [[Pair; 16]; 16], // [sender][destination]
}

extern "C" {
    fn wg_fresh(words: *mut u64, n_words: usize, slots: *mut Parcel, n_slots: usize, ledger: *mut Ledger, sites: u64, capacity: u64,
                first: u32) -> u32;
    fn wg_step(words: *mut u64, n_words: usize, slots: *mut Parcel, n_slots: usize, ledger: *mut Ledger, sites: u64, capacity: u64,
               kind: u64, first: u64, second: u64, id: u64, value: *mut u64) -> u32;
    fn wg_burst(words: *mut u64, n_words: usize, slots: *mut Parcel, n_slots: usize, ledger: *mut Ledger, sites: u64, capacity: u64,
                asks: *const u64, n_asks: usize, answers: *mut u64, n_answers: usize) -> u32;
    fn wg_lag(words: *mut u64, n_words: usize, slots: *mut Parcel, n_slots: usize, ledger: *mut Ledger, sites: u64, capacity: u64,
              from: u64, to: u64, lag: *mut i32) -> u32;
    fn wg_write_group(entries: *const u64, n_words: usize, out: *mut u8, room: usize, written: *mut usize) -> u32;
    fn wg_read_group(bytes: *const u8, n: usize, entries: *mut u64, n_words: usize, count: *mut usize) -> u32;
    fn wg_absorb(words: *mut u64, n_words: usize, slots: *mut Parcel, n_slots: usize, ledger: *mut Ledger, sites: u64, capacity: u64,
                 site: u64, bytes: *const u8, n: usize, rose: *mut u64) -> u32;
    fn wg_repair(words: *mut u64, n_words: usize, slots: *mut Parcel, n_slots: usize, ledger: *mut Ledger, sites: u64, capacity: u64,
                 merges: *mut u64) -> u32;
    fn wg_members(table: *const u64, n_words: usize, ids: *const u64, n_ids: usize, answers: *mut u8, n_answers: usize) -> u32;
    fn wg_read_line(line: *const u8, n: usize, area: *mut u8, n_area: usize) -> u32;
    fn wg_write_line(kind: u64, first: u64, second: u64, id: u64, buffer: *mut u8, room: usize) -> usize;
    fn wg_report(input: *const u8, n: usize, out: *mut u8, room: usize, written: *mut usize) -> u32;
}

pub const ADD: u64 = 1;
pub const REMOVE: u64 = 2;
pub const QUERY: u64 = 3;
pub const SEND: u64 = 4;
pub const MERGE: u64 = 5;
pub const DELIVER: u64 = 6;
pub const AGAIN: u64 = 7;
pub const LOSE: u64 = 8;
pub const LARGEST: u64 = 4_294_967_295;
pub const FIRST: u32 = 4_294_967_200; // the first serial of every pair, so that some pass the last one

#[derive(Clone, PartialEq)]
pub struct State {
    pub words: Vec<u64>,
    pub slots: Vec<Parcel>,
    pub ledger: Ledger,
    pub sites: u64,
    pub capacity: u64,
}

impl State {
    pub fn fresh(sites: usize, capacity: usize, slots: usize) -> State {
        let mut s = State {
            words: vec![0; sites * 2 * capacity],
            slots: vec![Parcel::default(); slots],
            ledger: Ledger::default(),
            sites: sites as u64,
            capacity: capacity as u64,
        };
        let refusal = unsafe {
            wg_fresh(s.words.as_mut_ptr(), s.words.len(), s.slots.as_mut_ptr(), s.slots.len(), &mut s.ledger, s.sites, s.capacity, FIRST)
        };
        assert_eq!(refusal, 0);
        s
    }

    // Lays a parcel into a free slot as a send would: counted, and with its pair's next serial.
    pub fn under_way(&mut self, slot: usize, sender: u64, site: u64, id: u64, length: u64) {
        let pair = &mut self.ledger.pairs[sender as usize][site as usize];
        self.slots[slot] = Parcel { site, id, length, sender: sender as u32, serial: pair.next };
        pair.next = pair.next.wrapping_add(1);
        pair.unsent = 0;
        self.ledger.sent += 1;
    }

    pub fn table(&self, site: usize) -> &[u64] {
        let n = 2 * self.capacity as usize;
        &self.words[site * n..(site + 1) * n]
    }

    pub fn table_mut(&mut self, site: usize) -> &mut [u64] {
        let n = 2 * self.capacity as usize;
        &mut self.words[site * n..(site + 1) * n]
    }

    // Becomes equal to a state of the same sizes, in the memory that it has.
    pub fn put_back(&mut self, from: &State) {
        self.words.copy_from_slice(&from.words);
        self.slots.copy_from_slice(&from.slots);
        self.ledger = from.ledger;
    }

    // The refusal and the other result.
    pub fn step(&mut self, kind: u64, first: u64, second: u64, id: u64) -> (u32, u64) {
        let mut value = 0;
        let refusal = unsafe {
            wg_step(self.words.as_mut_ptr(), self.words.len(), self.slots.as_mut_ptr(), self.slots.len(), &mut self.ledger,
                    self.sites, self.capacity, kind, first, second, id, &mut value)
        };
        (refusal, value)
    }

    // The refusal and the lag.
    pub fn lag(&mut self, from: u64, to: u64) -> (u32, i32) {
        let mut lag = 0;
        let refusal = unsafe {
            wg_lag(self.words.as_mut_ptr(), self.words.len(), self.slots.as_mut_ptr(), self.slots.len(), &mut self.ledger,
                   self.sites, self.capacity, from, to, &mut lag)
        };
        (refusal, lag)
    }

    // How many lengths rose, or the refusal.
    pub fn absorb(&mut self, site: u64, bytes: &[u8]) -> Result<u64, u32> {
        let mut rose = 0;
        let refusal = unsafe {
            wg_absorb(self.words.as_mut_ptr(), self.words.len(), self.slots.as_mut_ptr(), self.slots.len(), &mut self.ledger,
                      self.sites, self.capacity, site, bytes.as_ptr(), bytes.len(), &mut rose)
        };
        if refusal == 0 { Ok(rose) } else { Err(refusal) }
    }

    // How many merges the round was, or the refusal.
    pub fn repair(&mut self) -> Result<u64, u32> {
        let mut merges = 0;
        let refusal = unsafe {
            wg_repair(self.words.as_mut_ptr(), self.words.len(), self.slots.as_mut_ptr(), self.slots.len(), &mut self.ledger,
                      self.sites, self.capacity, &mut merges)
        };
        if refusal == 0 { Ok(merges) } else { Err(refusal) }
    }

    pub fn burst(&mut self, asks: &[u64], answers: &mut [u64]) -> u32 {
        unsafe {
            wg_burst(self.words.as_mut_ptr(), self.words.len(), self.slots.as_mut_ptr(), self.slots.len(), &mut self.ledger,
                     self.sites, self.capacity, asks.as_ptr(), asks.len(), answers.as_mut_ptr(), answers.len())
        }
    }
}

// How many bytes or entries it wrote, or the refusal.
pub fn write_group(entries: &[u64], out: &mut [u8]) -> Result<usize, u32> {
    let mut written = 0;
    let refusal = unsafe { wg_write_group(entries.as_ptr(), entries.len(), out.as_mut_ptr(), out.len(), &mut written) };
    if refusal == 0 { Ok(written) } else { Err(refusal) }
}

pub fn read_group(bytes: &[u8], entries: &mut [u64]) -> Result<usize, u32> {
    let mut count = 0;
    let refusal = unsafe { wg_read_group(bytes.as_ptr(), bytes.len(), entries.as_mut_ptr(), entries.len(), &mut count) };
    if refusal == 0 { Ok(count) } else { Err(refusal) }
}

pub fn members(table: &[u64], ids: &[u64], answers: &mut [u8]) -> u32 {
    unsafe { wg_members(table.as_ptr(), table.len(), ids.as_ptr(), ids.len(), answers.as_mut_ptr(), answers.len()) }
}

pub fn read_line(line: &[u8], area: &mut [u8; 32]) -> u32 {
    unsafe { wg_read_line(line.as_ptr(), line.len(), area.as_mut_ptr(), area.len()) }
}

pub fn write_line(n: [u64; 4], buffer: &mut [u8]) -> usize {
    unsafe { wg_write_line(n[0], n[1], n[2], n[3], buffer.as_mut_ptr(), buffer.len()) }
}

pub fn report(input: &[u8], out: &mut [u8]) -> usize {
    let mut written = 0;
    let refusal = unsafe { wg_report(input.as_ptr(), input.len(), out.as_mut_ptr(), out.len(), &mut written) };
    assert_eq!(refusal, 0);
    written
}
