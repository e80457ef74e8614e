//! Cases of the row-hit run (RULES 3.5): windows of none and of a few row hits, and controllers that do not reorder.

use compare_model::delay::Delays;
use compare_model::dram::NCAP;
use compare_model::file;
use compare_model::gen::{self, Draft, Rng};
use compare_model::judge::{Answer, By, Judge, Verdict};
use compare_model::table::{Kind, Task, TASKS, T_LOWEST};

use crate::cases::{calls, plain};
use crate::comparer::{Comparer, Difference, Reaches};

type Outcome = Result<(), Difference>;

/// Where figures stand in the timing.
const TWTR: usize = 6;
const TWR: usize = 7;

/// tWTR is 5 in the fixed cases, so that the rest of a run is 0 to 12 cycles.
pub fn all(on: &mut Comparer, rng: &mut Rng) -> Outcome {
    for sets in [&[1, 1][..], &[1, 2], &[1, 1, 2], &[3, 1, 2, 4], &[1; 8]] {
        for ncap in 0..=5 {
            for twr in 5..=17 {
                on.judge(&asked_once(sets, ncap, twr), &[], Reaches::all(TASKS))?;
            }
        }
    }
    without_reordering(on, rng)
}

/// Task 1 has C 1 and one request, and core 2 sends so many that request decides: its bound is 1 + RD.
fn asked_once(sets: &[u16], ncap: u16, twr: u16) -> Vec<u8> {
    let task = |core, h| Task { core, c: 1, t: T_LOWEST, d: T_LOWEST, h };
    let mut draft = Draft { sets: sets.to_vec(), tasks: vec![task(1, 1), task(2, 1_000_000)], ..plain(2, 3, 0) };
    draft.timing[NCAP] = ncap;
    draft.timing[TWR] = twr;
    let file = draft.file();
    let table = file::read(&file).expect("the row is accepted");
    let bound = 1 + Delays::new(&table).request(0) as u64;
    let shown = Answer { verdict: Verdict::Holds { bound, by: By::Request }, rounds: 2 };
    assert_eq!(Judge::of_accepted(&table).one(1, 0), Ok(shown), "the case isn't what it is meant to be");
    file
}

/// Random DRAM tables with Ncap 0. In some of them a bound has to show that no rest of a run is charged between cores that share.
fn without_reordering(on: &mut Comparer, rng: &mut Rng) -> Outcome {
    let mut shown = 0;
    for _ in 0..50 {
        let mut draft = gen::draft_of(rng, Kind::Dram);
        draft.timing[NCAP] = 0;
        calls(on, &draft.file())?;
        shown += tasks_that_show_it(&draft);
    }
    assert!(shown > 0, "no bound showed that a run of no row hit costs nothing");
    Ok(())
}

/// How many tasks with requests hold by request on a core that shares a partition, where a run would have a rest.
fn tasks_that_show_it(draft: &Draft) -> usize {
    if draft.timing[TWR] == draft.timing[TWTR] {
        return 0;
    }
    let table = file::read(&draft.file()).expect("a draft is accepted");
    let judge = Judge::of_accepted(&table);
    let shares = |core: usize| {
        let mut others = draft.sets.iter().enumerate().filter(|&(q, _)| q != core);
        others.any(|(_, set)| set & draft.sets[core] != 0)
    };
    let shows = |(task, number): (&Task, u8)| {
        let verdict = judge.one(number, 0).expect("it is fresh").verdict;
        task.h > 0 && shares(usize::from(task.core) - 1) && matches!(verdict, Verdict::Holds { by: By::Request, .. })
    };
    draft.tasks.iter().zip(1..).filter(|&of| shows(of)).count()
}
