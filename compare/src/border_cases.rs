//! Cases at the border of the two delays (RULES 5.7): a task's requests are set so that its request delay is just what job comes to at its
//! floor, after some of the cores or after all of them; the least that is above; and one request less.

use compare_model::delay::Delays;
use compare_model::dram::DDR3_1333;
use compare_model::file;
use compare_model::gen::{self, Draft, Rng};
use compare_model::judge::{Judge, Verdict};
use compare_model::stops::Parts;
use compare_model::table::{Table, Task, H_HIGHEST, TASKS, T_LOWEST};

use crate::comparer::{Comparer, Difference, Reaches};

type Outcome = Result<(), Difference>;

/// How often request was exactly the floor, a sum between, and all of job.
#[derive(Debug, Default)]
struct Met {
    floor: u64,
    between: u64,
    all: u64,
}

pub fn all(on: &mut Comparer, rng: &mut Rng) -> Outcome {
    let mut met = Met::default();
    for _ in 0..100 {
        let draft = gen::draft(rng);
        let i = rng.index(draft.tasks.len());
        around(on, &mut met, &draft, i)?;
        around(on, &mut met, &even(rng), 0)?;
    }
    assert!(met.floor.min(met.between).min(met.all) > 0, "the border was not met: {met:?}");
    Ok(())
}

/// Cores apart, or on a bus, of which each other one sends so many requests that they cost a whole number of task 1's, again and again in its time.
fn even(rng: &mut Rng) -> Draft {
    let cores = rng.between(3, 8);
    let own = rng.between(1, cores);
    let t = 1000 * T_LOWEST;
    let mut tasks = vec![Task { core: own as u8, c: rng.between(1, 9 * T_LOWEST), t, d: t, h: 0 }];
    for core in (1..=cores).filter(|&core| core != own) {
        let (t, h) = (rng.between(T_LOWEST, 3 * T_LOWEST), (cores - 1) * rng.between(0, 9));
        tasks.push(Task { core: core as u8, c: 1, t, d: t, h: h as u32 });
    }
    let sets = (0..cores).map(|core| 1 << core).collect();
    let draft = Draft { partitions: cores as u8, fourth: 0, timing: DDR3_1333, sets, tasks };
    if rng.once_in(2) {
        draft.on_bus(rng.between(1, 40_000) as u16)
    } else {
        draft
    }
}

/// Task `i` with requests around each sum, in the time of its bound, or of its C where it misses.
fn around(on: &mut Comparer, met: &mut Met, draft: &Draft, i: usize) -> Outcome {
    let table = file::read(&draft.file()).expect("a draft is accepted");
    let judge = Judge::of_accepted(&table);
    let t = match judge.one(i as u8 + 1, 0).expect("it is fresh").verdict {
        Verdict::Holds { bound, .. } => bound,
        Verdict::Misses => draft.tasks[i].c,
    };
    let Parts { request, sums, .. } = judge.parts(i, t);
    let mut sums = sums.to_vec();
    sums.dedup();
    for (at, &sum) in sums.iter().enumerate() {
        let Some(h) = requests_for(draft, i, request, sum) else { continue };
        for h in [h.saturating_sub(1), h, h + 1] {
            let changed = with_requests(draft, i, h.min(H_HIGHEST));
            on.judge(&changed.file(), &[], Reaches::all(TASKS))?;
            if request_of(&changed, i, t) == sum {
                match at {
                    0 => met.floor += 1,
                    _ if at + 1 < sums.len() => met.between += 1,
                    _ => met.all += 1,
                }
            }
        }
    }
    Ok(())
}

/// The most requests of task `i` with which its request delay, now `request`, is no more than `sum`; none where RD is 0 or there are no such.
fn requests_for(draft: &Draft, i: usize, request: u128, sum: u128) -> Option<u32> {
    let h = u128::from(draft.tasks[i].h);
    let table = file::read(&draft.file()).expect("a draft is accepted");
    let rd = Delays::new(&table).request(usize::from(draft.tasks[i].core) - 1);
    let of_others = request - rd * h;
    sum.checked_sub(of_others)?.checked_div(rd)?.try_into().ok().filter(|&h| h <= H_HIGHEST)
}

fn with_requests(draft: &Draft, i: usize, h: u32) -> Draft {
    let mut changed = draft.clone();
    changed.tasks[i].h = h;
    changed
}

/// The request delay of task `i` in a time.
fn request_of(draft: &Draft, i: usize, t: u64) -> u128 {
    let table: Table = file::read(&draft.file()).expect("it was accepted");
    Judge::of_accepted(&table).parts(i, t).request
}
