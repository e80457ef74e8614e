//! Pairs of files, an older and a newer one; and the texts of refusals.

use std::collections::BTreeSet;

use compare_model::answers::SHORT_OUTPUT;
use compare_model::file;
use compare_model::gen::{self, Draft, Rng};
use compare_model::table::{TASKS, T_HIGHEST};

use crate::comparer::{Comparer, Difference, Reaches};

type Outcome = Result<(), Difference>;

/// Both calls on a pair, in the plainest way.
pub fn calls(on: &mut Comparer, older: &[u8], newer: &[u8]) -> Outcome {
    on.worsens(older, newer)?;
    on.carry(older, newer, Reaches::all(TASKS))?;
    on.carry(older, newer, Reaches::all(0))?;
    Ok(())
}

/// A table that has only got worse: it is judged from the older bounds.
pub fn worsened(on: &mut Comparer, older: &Draft, newer: &Draft) -> Outcome {
    expect(on, older, newer, 1)
}

/// Two tables of which neither is the other worsened: each is judged fresh after the other.
pub fn unlike(on: &mut Comparer, one: &Draft, other: &Draft) -> Outcome {
    expect(on, one, other, 0)?;
    expect(on, other, one, 0)
}

/// Both answer this to whether the newer table is the older one worsened. The own reading is held to it too.
fn expect(on: &mut Comparer, older: &Draft, newer: &Draft, worsens: u8) -> Outcome {
    let (older, newer) = (older.file(), newer.file());
    let answered = on.worsens(&older, &newer)?;
    assert_eq!(answered, worsens, "the pair isn't what it is meant to be");
    calls(on, &older, &newer)
}

/// A table after itself, after what it was before it got worse, and before; after tables that differ elsewhere, or in the kind of board;
/// refused on either side.
pub fn random(on: &mut Comparer, rng: &mut Rng, draft: &Draft, faulty: &Draft) -> Outcome {
    let worse = gen::worsened(rng, draft);
    let (file, worse, faulty) = (draft.file(), worse.file(), faulty.file());
    for (older, newer) in
        [(&file, &file), (&file, &worse), (&worse, &file), (&faulty, &file), (&file, &faulty), (&faulty, &faulty)]
    {
        calls(on, older, newer)?;
    }
    short_outputs(on, rng, &file, &worse)?;
    unlike(on, draft, &gen::on_the_other_kind(rng, draft))?;
    for kind in 0..12 {
        let other = elsewhere(rng, draft, kind).file();
        calls(on, &file, &other)?;
        calls(on, &other, &file)?;
    }
    let cut = &file[..rng.index(file.len())];
    calls(on, cut, &worse)?;
    calls(on, &file, cut)
}

/// Each output in turn too short by one, just long enough and longer.
fn short_outputs(on: &mut Comparer, rng: &mut Rng, older: &[u8], newer: &[u8]) -> Outcome {
    let tasks = file::read(newer).expect("it is accepted").tasks().len();
    let places = rng.pick(&[tasks - 1, tasks, tasks + 1]);
    let enough = Reaches::all(tasks);
    on.carry(older, newer, Reaches { bounds: places, ..enough })?;
    on.carry(older, newer, Reaches { rounds: places, ..enough })?;
    on.carry(older, newer, Reaches { by: places, ..enough })?;
    Ok(())
}

/// The table with one difference, which may not change it or may break it.
fn elsewhere(rng: &mut Rng, draft: &Draft, kind: usize) -> Draft {
    let mut other = draft.clone();
    let core = rng.index(other.sets.len());
    let cores = other.sets.len() as u64;
    let k = rng.index(other.tasks.len());
    let task = &mut other.tasks[k];
    match kind {
        0 => task.t = rng.between(task.t, T_HIGHEST),
        1 => task.d = rng.between(task.c, task.t),
        2 => task.c = rng.between(1, task.c),
        3 => task.h = rng.between(0, task.h.into()) as u32,
        4 => task.core = rng.between(1, cores) as u8,
        5 => other.timing = gen::timing(rng, draft.kind()),
        6 => other.sets[core] = rng.between(1, (1 << other.partitions) - 1) as u16,
        7 => other.partitions = rng.between(other.partitions.into(), 16) as u8,
        8 => other.tasks.truncate(k + 1),
        9 => other.sets.push(1),
        10 => other.fourth ^= 1,
        _ => other.tasks.swap(0, k),
    }
    other
}

/// Every number has a text that fits its own length and no less; the numbers that refuse have one each, which no other number has.
pub fn reasons(on: &mut Comparer) -> Outcome {
    let (mut refusing, mut others) = (BTreeSet::new(), BTreeSet::new());
    for number in 0..=u8::MAX {
        let text = on.reason(number)?;
        let refuses = (1..=19).contains(&number) || number == SHORT_OUTPUT;
        if refuses { &mut refusing } else { &mut others }.insert(text);
    }
    let own = refusing.difference(&others).count();
    if own == 20 {
        return Ok(());
    }
    Err(Difference::of(
        "ryb_reason of 1 to 19 and 255".to_owned(),
        format!("{own} texts of their own"),
        "20 texts of their own".to_owned(),
    ))
}
