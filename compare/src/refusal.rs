//! What is said of input that is refused.

/// A refusal: its number (RULES 9.3), and the first figure, relation, core or task at fault (from 1), else 0.
#[derive(Clone, Copy, Debug, PartialEq, Eq)]
pub struct Refusal {
    pub number: u8,
    pub place: u8,
}

impl Refusal {
    /// A refusal that has no place.
    pub fn plain(number: u8) -> Refusal {
        Refusal { number, place: 0 }
    }

    /// A refusal at index `at` (from 0) of the figures, relations, cores or tasks.
    pub fn at(number: u8, at: usize) -> Refusal {
        Refusal { number, place: (at + 1) as u8 }
    }

    /// The number the C functions answer: the number and 256 times the place.
    pub fn code(self) -> u16 {
        u16::from(self.number) + 256 * u16::from(self.place)
    }
}

/// Refuses with `number` at the first fault, if there is one.
pub fn first_fault(number: u8, faults: impl IntoIterator<Item = bool>) -> Result<(), Refusal> {
    match faults.into_iter().position(|fault| fault) {
        Some(at) => Err(Refusal::at(number, at)),
        None => Ok(()),
    }
}
