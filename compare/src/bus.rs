//! A bus that serves the cores in turn: its timing figures (refusal 16), and what a request and a job wait for it.

use crate::refusal::{first_fault, Refusal};
use crate::table::{CORES, FIGURES};

/// The place of s among the figures, from 0. All others are 0.
const TURN: usize = 0;

/// Refusal 16.
pub fn check(figures: &[u16; FIGURES]) -> Result<(), Refusal> {
    let at_fault = |at: usize, figure: u16| if at == TURN { figure == 0 } else { figure != 0 };
    first_fault(16, figures.iter().enumerate().map(|(at, &figure)| at_fault(at, figure)))
}

/// The timing figures of a bus table whose s is this.
pub fn figures(turn: u16) -> [u16; FIGURES] {
    let mut figures = [0; FIGURES];
    figures[TURN] = turn;
    figures
}

/// The delays of an accepted bus table, in picoseconds.
#[derive(Clone, Debug)]
pub struct Bus {
    cores: usize,
    turn: u128,
    per_own_request: u128,
}

impl Bus {
    pub fn new(figures: &[u16; FIGURES], cores: usize) -> Bus {
        let turn = figures[TURN].into();
        Bus { cores, turn, per_own_request: (cores as u128 - 1) * turn }
    }

    /// RD, which is the same for every core.
    pub fn request(&self) -> u128 {
        self.per_own_request
    }

    /// JD(p, t), where `a[q]` is A(q, t) for each q that is not p.
    pub fn job(&self, p: usize, a: &[u128; CORES]) -> u128 {
        (0..self.cores).filter(|&q| q != p).map(|q| a[q]).sum::<u128>() * self.turn
    }
}
