//! The table, its kind and its checks: refusals 5 and 8 to 11, between them those of its timing figures, and 18.

use crate::bus;
use crate::dram;
use crate::refusal::{first_fault, Refusal};

pub const CORES: usize = 8;
pub const PARTITIONS: usize = 16;
pub const TASKS: usize = 32;
pub const FIGURES: usize = 15;

pub const T_LOWEST: u64 = 100_000_000;
pub const T_HIGHEST: u64 = 1_000_000_000_000;
pub const H_HIGHEST: u32 = 1_000_000;

/// The bits of the fourth byte: of a bus table, and of a salvaged one.
const BUS_BIT: u8 = 1;
pub const SALVAGED_BIT: u8 = 2;

/// What the cores share: a DRAM, or a memory behind a bus that serves them in turn.
#[derive(Clone, Copy, Debug, PartialEq, Eq)]
pub enum Kind {
    Dram,
    Bus,
}

impl Kind {
    /// What a table's fourth byte tells. Its other bits tell nothing of the kind.
    pub fn of(fourth: u8) -> Kind {
        if fourth & BUS_BIT == 0 {
            Kind::Dram
        } else {
            Kind::Bus
        }
    }

    /// The fourth byte of an accepted table of this kind that isn't salvaged.
    pub fn fourth(self) -> u8 {
        match self {
            Kind::Dram => 0,
            Kind::Bus => BUS_BIT,
        }
    }
}

/// A task: its core from 1, its times in picoseconds, its requests.
#[derive(Clone, Copy, Debug, Default, PartialEq, Eq)]
pub struct Task {
    pub core: u8,
    pub c: u64,
    pub t: u64,
    pub d: u64,
    pub h: u32,
}

/// A table. Places beyond the counts mean nothing.
#[derive(Clone, Copy, Debug, Default, PartialEq, Eq)]
pub struct Table {
    pub cores: u8,
    pub partitions: u8,
    pub tasks: u8,
    pub fourth: u8,
    pub timing: [u16; FIGURES],
    pub sets: [u16; CORES],
    pub task: [Task; TASKS],
}

impl Table {
    /// The sets of the cores that the table has.
    pub fn sets(&self) -> &[u16] {
        &self.sets[..usize::from(self.cores)]
    }

    /// The tasks that the table has.
    pub fn tasks(&self) -> &[Task] {
        &self.task[..usize::from(self.tasks)]
    }

    pub fn kind(&self) -> Kind {
        Kind::of(self.fourth)
    }

    /// The first of refusals 5 to 11 and 16 that applies, in the order of RULES 9.3.
    pub fn check(&self) -> Result<(), Refusal> {
        self.check_board()?;
        first_fault(9, self.tasks().iter().map(|task| !self.has_core_of(task)))?;
        first_fault(10, self.tasks().iter().map(|task| !task.times_pass()))?;
        first_fault(11, self.tasks().iter().map(|task| !task.requests_pass()))
    }

    /// The first of refusals 5 to 8 and 16 that applies: what stands before the tasks.
    pub fn check_board(&self) -> Result<(), Refusal> {
        self.check_header()?;
        match self.kind() {
            Kind::Dram => dram::check(&self.timing)?,
            Kind::Bus => bus::check(&self.timing)?,
        }
        first_fault(8, self.sets().iter().map(|&set| !self.set_passes(set)))
    }

    /// Does this task, on these cores, pass 9 to 11?
    pub fn task_passes(&self, task: &Task) -> bool {
        self.has_core_of(task) && task.times_pass() && task.requests_pass()
    }

    pub fn salvaged(&self) -> bool {
        self.fourth & SALVAGED_BIT != 0
    }

    /// The first of refusals 5 to 11, 16 and 18 that applies to a table that is to be judged.
    pub fn check_to_judge(&self) -> Result<(), Refusal> {
        self.check()?;
        self.check_not_salvaged()
    }

    /// Refusal 18.
    pub fn check_not_salvaged(&self) -> Result<(), Refusal> {
        if self.salvaged() {
            Err(Refusal::plain(18))
        } else {
            Ok(())
        }
    }

    /// Refusal 5.
    pub fn check_header(&self) -> Result<(), Refusal> {
        let passes = |count: u8, highest: usize| (1..=highest).contains(&usize::from(count));
        let counts = passes(self.cores, CORES) && passes(self.partitions, PARTITIONS) && passes(self.tasks, TASKS);
        if counts && self.fourth & !(BUS_BIT | SALVAGED_BIT) == 0 {
            Ok(())
        } else {
            Err(Refusal::plain(5))
        }
    }

    /// Not empty, and no partition above the count.
    fn set_passes(&self, set: u16) -> bool {
        set != 0 && u32::from(set) < 1 << self.partitions
    }

    fn has_core_of(&self, task: &Task) -> bool {
        (1..=self.cores).contains(&task.core)
    }
}

impl Task {
    fn times_pass(&self) -> bool {
        (T_LOWEST..=T_HIGHEST).contains(&self.t) && (1..=self.t).contains(&self.d) && (1..=self.d).contains(&self.c)
    }

    fn requests_pass(&self) -> bool {
        self.h <= H_HIGHEST
    }
}
