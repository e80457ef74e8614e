//! A DRAM: its timing figures, their ranges and relations (refusals 6 and 7), and what they make a request and a job wait.

use crate::refusal::{first_fault, Refusal};
use crate::table::{CORES, FIGURES};

/// The lowest and the highest of each timing figure, in the file's order. Of 4 to 16 only three pass for BL.
pub const RANGES: [(u16, u16); FIGURES] = [
    (1, 5000),  // tCK, picoseconds
    (1, 127),   // tRP
    (1, 127),   // tRCD
    (1, 127),   // CL
    (1, 127),   // WL
    (4, 16),    // BL
    (1, 127),   // tWTR
    (1, 127),   // tWR
    (1, 127),   // tRRD
    (1, 127),   // tFAW
    (1, 127),   // tRAS
    (1, 127),   // tRTP
    (0, 127),   // tRTRS
    (64, 2048), // Ncols
    (0, 65535), // Ncap, 65535 where unknown
];

/// The places of BL and Ncap among the figures, from 0.
pub const BL: usize = 5;
pub const NCAP: usize = 14;

/// The DDR3-1333 row, Ncap unknown.
pub const DDR3_1333: [u16; FIGURES] = [1500, 9, 9, 9, 7, 8, 5, 10, 4, 20, 24, 5, 2, 1024, 65535];

/// Refusals 6 and 7.
pub fn check(figures: &[u16; FIGURES]) -> Result<(), Refusal> {
    first_fault(6, figures.iter().enumerate().map(|(at, &figure)| !figure_passes(at, figure)))?;
    first_fault(7, Timing::new(figures).relations().map(|holds| !holds))
}

fn figure_passes(at: usize, figure: u16) -> bool {
    let (lowest, highest) = RANGES[at];
    (lowest..=highest).contains(&figure) && (at != BL || [4, 8, 16].contains(&figure))
}

/// The timing figures by name. All but `tck`, `bl`, `ncols` and `ncap` are cycles.
#[derive(Clone, Copy, Debug)]
pub struct Timing {
    pub tck: i64,
    pub trp: i64,
    pub trcd: i64,
    pub cl: i64,
    pub wl: i64,
    pub bl: i64,
    pub twtr: i64,
    pub twr: i64,
    pub trrd: i64,
    pub tfaw: i64,
    pub tras: i64,
    pub trtp: i64,
    pub trtrs: i64,
    pub ncols: i64,
    pub ncap: i64,
}

impl Timing {
    pub fn new(figures: &[u16; FIGURES]) -> Timing {
        let [tck, trp, trcd, cl, wl, bl, twtr, twr, trrd, tfaw, tras, trtp, trtrs, ncols, ncap] =
            figures.map(i64::from);
        Timing { tck, trp, trcd, cl, wl, bl, twtr, twr, trrd, tfaw, tras, trtp, trtrs, ncols, ncap }
    }

    /// The five relations of RULES 2.5: whether each holds.
    pub fn relations(&self) -> [bool; 5] {
        [
            self.twr >= self.twtr,
            self.write_to_read() >= self.cl,
            self.trtp < self.cl + self.half_burst() + 2,
            self.trcd + self.hit() > self.tras,
            self.ncols % self.bl == 0,
        ]
    }

    fn half_burst(&self) -> i64 {
        self.bl / 2
    }

    /// WL + BL/2 + tWTR.
    fn write_to_read(&self) -> i64 {
        self.wl + self.half_burst() + self.twtr
    }

    pub fn pre(&self) -> i64 {
        1
    }

    pub fn act(&self) -> i64 {
        self.trrd.max(self.tfaw - 3 * self.trrd)
    }

    pub fn rw(&self) -> i64 {
        let burst = self.half_burst();
        self.write_to_read()
            .max(self.cl + burst + 2 - self.wl)
            .max(self.wl + burst + self.trtrs - self.cl)
            .max(self.cl + burst + self.trtrs - self.wl)
            .max(burst + self.trtrs)
    }

    pub fn hit(&self) -> i64 {
        let burst = self.half_burst();
        (self.cl + burst + 2).max(self.wl + burst + self.twtr.max(self.twr))
    }

    pub fn conf(&self) -> i64 {
        self.trp + self.trcd + self.hit()
    }

    /// The cycles of `m` row hits in a row: the last write is recovered from, if there is one.
    pub fn run(&self, m: i64) -> i64 {
        let recovery = if m > 0 { self.twr - self.twtr } else { 0 };
        (m + 1) / 2 * self.write_to_read() + m / 2 * self.cl + recovery
    }

    /// How many row hits can overtake. Unknown is above every Ncols/BL, so the smaller is right for it too.
    pub fn window(&self) -> i64 {
        (self.ncols / self.bl).min(self.ncap)
    }

    /// Cycles as picoseconds. The delay figures of an accepted timing are not negative.
    fn picoseconds(&self, cycles: i64) -> u128 {
        (cycles * self.tck) as u128
    }
}

/// How two cores stand to each other.
#[derive(Clone, Copy, Debug, PartialEq, Eq)]
enum Side {
    Same,
    Near,
    Far,
}

/// The delays of an accepted timing, in picoseconds, between cores with these sets.
#[derive(Clone, Debug)]
pub struct Dram {
    cores: usize,
    sides: [[Side; CORES]; CORES],
    per_far_request: u128,
    per_near_request: u128,
    per_own_request: [u128; CORES],
}

impl Dram {
    pub fn new(figures: &[u16; FIGURES], sets: &[u16]) -> Dram {
        let timing = Timing::new(figures);
        let mut dram = Dram {
            cores: sets.len(),
            sides: sides(sets),
            per_far_request: timing.picoseconds(timing.pre() + timing.act() + timing.rw()),
            per_near_request: timing.picoseconds(timing.conf()),
            per_own_request: [0; CORES],
        };
        for p in 0..dram.cores {
            dram.per_own_request[p] = dram.inter(p) + dram.intra(p, &timing);
        }
        dram
    }

    /// RD(p).
    pub fn request(&self, p: usize) -> u128 {
        self.per_own_request[p]
    }

    /// JD(p, t), where `a[q]` is A(q, t) for each q that is not p.
    pub fn job(&self, p: usize, a: &[u128; CORES]) -> u128 {
        let near: u128 = self.on(p, Side::Near).map(|q| a[q] * self.per_near_request + self.job_inter(q, a)).sum();
        self.job_inter(p, a) + near
    }

    /// The cores that stand to `p` in that way.
    fn on(&self, p: usize, side: Side) -> impl Iterator<Item = usize> + '_ {
        let sides = self.sides[p];
        (0..self.cores).filter(move |&q| sides[q] == side)
    }

    fn inter(&self, p: usize) -> u128 {
        self.on(p, Side::Far).map(|_| self.per_far_request).sum()
    }

    fn intra(&self, p: usize, timing: &Timing) -> u128 {
        if self.on(p, Side::Near).next().is_none() {
            return 0;
        }
        let far = self.on(p, Side::Far).count() as i64;
        let reorder = timing.run(timing.window()) + timing.window() * timing.rw() * far + timing.trp + timing.trcd;
        let queued: u128 = self.on(p, Side::Near).map(|q| self.per_near_request + self.inter(q)).sum();
        timing.picoseconds(reorder) + queued
    }

    /// jinter(p, t).
    fn job_inter(&self, p: usize, a: &[u128; CORES]) -> u128 {
        self.on(p, Side::Far).map(|q| a[q]).sum::<u128>() * self.per_far_request
    }
}

fn sides(sets: &[u16]) -> [[Side; CORES]; CORES] {
    let mut sides = [[Side::Same; CORES]; CORES];
    for (p, &mine) in sets.iter().enumerate() {
        for (q, &other) in sets.iter().enumerate().filter(|&(q, _)| q != p) {
            sides[p][q] = if mine & other != 0 { Side::Near } else { Side::Far };
        }
    }
    sides
}
