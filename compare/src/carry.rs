//! A newer table after an older one: is it the older one worsened, and its answers.

use crate::judge::{Answer, Judge, Verdict};
use crate::table::{Table, Task, TASKS};

/// RULES 6.4, of two accepted tables.
pub fn worsens(older: &Table, newer: &Table) -> bool {
    older.partitions == newer.partitions
        && older.fourth == newer.fourth
        && older.timing == newer.timing
        && older.sets() == newer.sets()
        && older.tasks().len() == newer.tasks().len()
        && older.tasks().iter().zip(newer.tasks()).all(|(was, is)| worse(was, is))
}

fn worse(was: &Task, is: &Task) -> bool {
    (was.core, was.d) == (is.core, is.d) && was.c <= is.c && was.h <= is.h && was.t >= is.t
}

/// RULES 6.5: the newer table's answers, from the older bounds if it is the older one worsened, else fresh. Neither is salvaged.
pub fn answers(older: &Table, newer: &Table) -> [Answer; TASKS] {
    let starts: Vec<u64> =
        if worsens(older, newer) { fresh(older).iter().map(older_bound).collect() } else { Vec::new() };
    Judge::of_accepted(newer).all(&starts).expect("an older bound is never refused")
}

fn fresh(table: &Table) -> [Answer; TASKS] {
    Judge::of_accepted(table).all(&[]).expect("a fresh judgement is never refused")
}

fn older_bound(answer: &Answer) -> u64 {
    match answer.verdict {
        Verdict::Holds { bound, .. } => bound,
        Verdict::Misses => 0,
    }
}

#[cfg(test)]
mod tests {
    use super::*;
    use crate::file;
    use crate::gen::{self, Rng};

    /// RULES 6.6; and somewhere the rounds are fewer.
    #[test]
    fn carried_answers_are_the_fresh_ones() {
        let mut rng = Rng::new(3);
        let mut fewer = 0;
        for _ in 0..500 {
            let draft = gen::draft(&mut rng);
            let older = file::read(&draft.file()).expect("a draft is accepted");
            let newer = file::read(&gen::worsened(&mut rng, &draft).file()).expect("so is a worsened one");
            assert!(worsens(&older, &newer));
            for (carried, fresh) in answers(&older, &newer).iter().zip(fresh(&newer)) {
                assert_eq!(carried.verdict, fresh.verdict);
                assert!(carried.rounds <= fresh.rounds);
                fewer += u32::from(carried.rounds < fresh.rounds);
            }
        }
        assert!(fewer > 0);
    }
}
