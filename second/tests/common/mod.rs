//! The proved library as C sees it, and numbers to try it on.

#[repr(C)]
#[derive(Debug, PartialEq)]
pub struct Amount {
    pub refusal: u32,
    pub amount: u64,
}

#[repr(C)]
#[derive(Debug, PartialEq)]
pub struct Entry {
    pub refusal: u32,
    pub number: u32,
}

#[link(name = "depthgrid", kind = "static")]
extern "C" {
    fn dg_pack(numbers: *const u32, n: usize, out: *mut u8, room: usize) -> Amount;
    fn dg_lookup(list: *const u8, len: usize, entry: usize) -> Entry;
    fn dg_ones(section: *const u8, len: usize, place: usize) -> Amount;
}

pub fn pack(numbers: &[u32], out: &mut [u8]) -> (u32, u64) {
    let r = unsafe { dg_pack(numbers.as_ptr(), numbers.len(), out.as_mut_ptr(), out.len()) };
    (r.refusal, r.amount)
}

pub fn look_up(list: &[u8], entry: u64) -> (u32, u32) {
    let r = unsafe { dg_lookup(list.as_ptr(), list.len(), entry as usize) };
    (r.refusal, r.number)
}

pub fn count_ones(section: &[u8], place: u64) -> (u32, u64) {
    let r = unsafe { dg_ones(section.as_ptr(), section.len(), place as usize) };
    (r.refusal, r.amount)
}

/// Numbers that look random, the same in every run.
pub struct Random(pub u64);

impl Random {
    pub fn next(&mut self) -> u64 {
        self.0 ^= self.0 << 13;
        self.0 ^= self.0 >> 7;
        self.0 ^= self.0 << 17;
        self.0
    }

    pub fn below(&mut self, n: u64) -> u64 {
        self.next() % n
    }

    /// A number of one, two or three bytes, often at the edge between them.
    pub fn number(&mut self) -> u32 {
        let edges = [0, 1, 255, 256, 257, 65_535, 65_536, 65_537, 16_777_214, 16_777_215];
        match self.below(4) {
            0 => edges[self.below(10) as usize],
            width => self.below(1 << (8 * width)) as u32,
        }
    }
}
