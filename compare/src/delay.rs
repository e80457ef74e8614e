//! What cores cost each other, in a table of either kind.

use crate::bus::Bus;
use crate::dram::Dram;
use crate::table::{Kind, Table, CORES};

/// The delays of an accepted table, in picoseconds.
#[derive(Clone, Debug)]
pub enum Delays {
    Dram(Dram),
    Bus(Bus),
}

impl Delays {
    pub fn new(table: &Table) -> Delays {
        match table.kind() {
            Kind::Dram => Delays::Dram(Dram::new(&table.timing, table.sets())),
            Kind::Bus => Delays::Bus(Bus::new(&table.timing, usize::from(table.cores))),
        }
    }

    /// RD(p).
    pub fn request(&self, p: usize) -> u128 {
        match self {
            Delays::Dram(dram) => dram.request(p),
            Delays::Bus(bus) => bus.request(),
        }
    }

    /// JD(p, t), where `a[q]` is A(q, t) for each q that is not p.
    pub fn job(&self, p: usize, a: &[u128; CORES]) -> u128 {
        match self {
            Delays::Dram(dram) => dram.job(p, a),
            Delays::Bus(bus) => bus.job(p, a),
        }
    }
}
