//! RULES 5.7: how much of job has to be added up, core by core from its floor, until it reaches request. Apart from the judging itself, which adds
//! all of it.

use crate::judge::Judge;
use crate::table::CORES;

/// In how many rounds the floor was enough; some of the cores were; all had to be added.
#[derive(Clone, Copy, Debug, Default, PartialEq, Eq)]
pub struct Stops {
    pub floor: u64,
    pub core: u64,
    pub never: u64,
}

/// What F(t) of a task is made of.
#[derive(Clone, Copy, Debug)]
pub struct Parts {
    /// C, and that of the higher tasks.
    pub execution: u128,
    pub request: u128,
    /// What job comes to: its floor, then that with what core 1 adds, with what cores 1 and 2 add, and so on.
    pub sums: [u128; CORES + 1],
}

impl Parts {
    fn response(&self) -> u128 {
        self.execution + self.request.min(self.sums[CORES])
    }
}

impl Judge<'_> {
    /// Those of task `i`.
    pub fn parts(&self, i: usize, t: u64) -> Parts {
        let own = &self.tasks[i];
        let (mut execution, mut requests) = (u128::from(own.c), u128::from(own.h));
        let (mut least, mut all) = ([0; CORES], [0; CORES]);
        for (j, task) in self.tasks.iter().enumerate() {
            let (releases, h) = (u128::from(t.div_ceil(task.t)), u128::from(task.h));
            if task.core != own.core {
                let q = usize::from(task.core) - 1;
                least[q] += 2 * h;
                all[q] += (releases + 1) * h;
            } else if j < i {
                execution += releases * u128::from(task.c);
                requests += releases * h;
            }
        }
        let p = usize::from(own.core) - 1;
        let mut sums = [self.delays.job(p, &least); CORES + 1];
        for q in 0..CORES {
            least[q] = all[q];
            sums[q + 1] = self.delays.job(p, &least);
        }
        Parts { execution, request: self.delays.request(p) * requests, sums }
    }

    /// The rounds of a fresh judgement of all tasks, on so many cores.
    pub fn stops(&self, cores: usize) -> Stops {
        let mut stops = Stops::default();
        for Parts { request, sums, .. } in (0..self.tasks.len()).flat_map(|i| self.rounds_of(i)) {
            match sums[..cores].iter().position(|&sum| request <= sum) {
                Some(0) => stops.floor += 1,
                Some(_) => stops.core += 1,
                None => stops.never += 1,
            }
        }
        stops
    }

    /// The parts of F in each round of task `i`, fresh.
    fn rounds_of(&self, i: usize) -> Vec<Parts> {
        let task = &self.tasks[i];
        let mut t = task.c;
        let mut rounds = Vec::new();
        loop {
            let parts = self.parts(i, t);
            rounds.push(parts);
            match parts.response() {
                next if next == u128::from(t) || next > u128::from(task.d) => return rounds,
                next => t = next as u64,
            }
        }
    }
}

#[cfg(test)]
mod tests {
    use super::*;
    use crate::file;
    use crate::gen::{draft, Rng};
    use crate::judge::{By, Verdict};

    /// No sum is less than the one before. The rounds are as many as the judging counts, and end at its bound; request decides there exactly where a
    /// sum reaches it.
    #[test]
    fn parts_make_the_answers() {
        let mut rng = Rng::new(6);
        for _ in 0..300 {
            let table = file::read(&draft(&mut rng).file()).expect("a draft is accepted");
            let judge = Judge::of_accepted(&table);
            let answers = judge.all(&[]).expect("it is fresh");
            for (i, answer) in answers[..table.tasks().len()].iter().enumerate() {
                let rounds = judge.rounds_of(i);
                assert!(rounds.iter().all(|parts| parts.sums.windows(2).all(|pair| pair[0] <= pair[1])));
                assert_eq!(rounds.len() as u64, answer.rounds);
                let last = rounds[rounds.len() - 1];
                let by = if last.sums.iter().any(|&sum| last.request <= sum) { By::Request } else { By::Job };
                match answer.verdict {
                    Verdict::Holds { bound, .. } => {
                        assert_eq!(answer.verdict, Verdict::Holds { bound, by });
                        assert_eq!(last.response(), u128::from(bound));
                    }
                    Verdict::Misses => assert!(last.response() > u128::from(table.tasks()[i].d)),
                }
            }
            let Stops { floor, core, never } = judge.stops(usize::from(table.cores));
            assert_eq!(floor + core + never, answers.iter().map(|answer| answer.rounds).sum());
        }
    }
}
