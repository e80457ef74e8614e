//! Fixed cases of bus tables: the fourth byte, s, the figures that are 0, the order of refusals, and sets, which have no part.

use compare_model::gen::{self, Draft, Rng};
use compare_model::listing::listing;
use compare_model::table::{Kind, CORES, FIGURES};

use crate::cases::{calls, expect, listed, plain, raised, whole_and_damaged};
use crate::comparer::{Comparer, Difference};
use crate::pairs;

type Outcome = Result<(), Difference>;
type Fault = fn(&mut Draft);

/// An s that costs what a request of a core apart does under DDR3-1333.
pub const TURN: u16 = 37_500;

pub fn all(on: &mut Comparer, rng: &mut Rng) -> Outcome {
    fourth_bytes(on)?;
    turns(on)?;
    other_figures(on)?;
    order(on)?;
    idle_cores(on)?;
    sets_have_no_part(on, rng)?;
    examples(on)
}

/// Every fourth byte, on a table that is right in all else with 0 or 2, and on one that is with 1 or 3.
fn fourth_bytes(on: &mut Comparer) -> Outcome {
    let dram = plain(2, 2, 3);
    let bus = dram.on_bus(TURN);
    for fourth in 0..=u8::MAX {
        let (of_dram, of_bus) = match fourth {
            0 | 2 => (0, 6 + 256),
            1 | 3 => (16 + 2 * 256, 0),
            _ => (5, 5),
        };
        expect(on, &Draft { fourth, ..dram.clone() }.file(), of_dram)?;
        expect(on, &Draft { fourth, ..bus.clone() }.file(), of_bus)?;
    }
    Ok(())
}

/// s at its limits and one outside, at the limits of tCK, and at those of its bytes.
fn turns(on: &mut Comparer) -> Outcome {
    for turn in [0, 1, 2, 127, 128, 255, 256, 5000, 5001, TURN, 0x7FFF, 0x8000, 0xFF00, u16::MAX - 1, u16::MAX] {
        let code = if turn == 0 { 16 + 256 } else { 0 };
        for cores in [1, 2, CORES] {
            expect(on, &plain(cores, 2, 9).on_bus(turn).file(), code)?;
        }
    }
    Ok(())
}

/// Each of the other figures not 0: alone, with one behind it, and with an s of 0.
fn other_figures(on: &mut Comparer) -> Outcome {
    for at in 1..FIGURES {
        for figure in [1, 8, 255, 256, u16::MAX] {
            let mut draft = plain(3, 3, 4).on_bus(TURN);
            draft.timing[at] = figure;
            let code = 16 + 256 * (at as u16 + 1);
            expect(on, &draft.file(), code)?;
            draft.timing[FIGURES - 1] = figure;
            expect(on, &draft.file(), code)?;
            draft.timing[0] = 0;
            expect(on, &draft.file(), 16 + 256)?;
        }
    }
    Ok(())
}

/// Each refusal that comes after 16: alone, with 16, and with 16 and 5.
fn order(on: &mut Comparer) -> Outcome {
    let later: [(u16, Fault); 5] = [
        (8 + 2 * 256, |draft| draft.sets[1] = 0),
        (8 + 3 * 256, |draft| draft.sets[2] = 8),
        (9 + 3 * 256, |draft| draft.tasks[2].core = 4),
        (10 + 256, |draft| draft.tasks[0].c = 0),
        (11 + 4 * 256, |draft| draft.tasks[3].h = 1_000_001),
    ];
    for (code, fault) in later {
        let mut draft = plain(3, 3, 4).on_bus(TURN);
        fault(&mut draft);
        expect(on, &draft.file(), code)?;
        draft.timing[6] = 5;
        expect(on, &draft.file(), 16 + 7 * 256)?;
        expect(on, &draft.salvaged().file(), 16 + 7 * 256)?;
        draft.fourth = 5;
        expect(on, &draft.file(), 5)?;
    }
    Ok(())
}

/// Tasks on the first two of one to eight cores: the others have their turns too.
fn idle_cores(on: &mut Comparer) -> Outcome {
    for cores in 1..=CORES {
        for requests in [0, 1, 20, 1_000_000] {
            let mut draft = plain(cores, 1, 2).on_bus(TURN);
            draft.tasks[1].h = requests;
            expect(on, &draft.file(), 0)?;
        }
    }
    Ok(())
}

/// Bus tables that differ only in their sets are answered alike.
fn sets_have_no_part(on: &mut Comparer, rng: &mut Rng) -> Outcome {
    for _ in 0..20 {
        let draft = gen::draft_of(rng, Kind::Bus);
        let other = Draft { sets: gen::sets(rng, draft.sets.len(), draft.partitions), ..draft.clone() };
        alike(on, &draft, &other)?;
    }
    Ok(())
}

/// Every call on both. What each of them answers agrees with the own reading, which lists them alike.
fn alike(on: &mut Comparer, one: &Draft, other: &Draft) -> Outcome {
    let (one, other) = (one.file(), other.file());
    assert_eq!(listing(&one), listing(&other), "the pair isn't what it is meant to be");
    calls(on, &one)?;
    calls(on, &other)
}

/// RULES 11.10: the listed table on a bus, damaged at every byte, and beside its likes: on a DRAM, with both cores in one partition,
/// and with another s.
fn examples(on: &mut Comparer) -> Outcome {
    let on_bus = listed().on_bus(TURN);
    let sharing = Draft { sets: vec![2, 2], ..on_bus.clone() };
    whole_and_damaged(on, &on_bus)?;
    alike(on, &on_bus, &listed())?;
    alike(on, &on_bus, &sharing)?;
    pairs::worsened(on, &on_bus, &on_bus)?;
    pairs::worsened(on, &on_bus, &raised().on_bus(TURN))?;
    for other in [listed(), raised(), sharing, listed().on_bus(TURN - 1), raised().on_bus(TURN + 1)] {
        pairs::unlike(on, &on_bus, &other)?;
    }
    Ok(())
}
