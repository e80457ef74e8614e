//! The response equation and its rounds: refusals 18 and 12 to 14.

use crate::delay::Delays;
use crate::refusal::{first_fault, Refusal};
use crate::table::{Table, Task, CORES, TASKS};

/// Which of the two delays decided.
#[derive(Clone, Copy, Debug, PartialEq, Eq)]
pub enum By {
    Request,
    Job,
}

#[derive(Clone, Copy, Debug, Default, PartialEq, Eq)]
pub enum Verdict {
    Holds {
        bound: u64,
        by: By,
    },
    #[default]
    Misses,
}

/// What is said of one task. The answer of a refusal, and of places beyond the tasks, is the default one.
#[derive(Clone, Copy, Debug, Default, PartialEq, Eq)]
pub struct Answer {
    pub verdict: Verdict,
    pub rounds: u64,
}

/// An accepted table with its delays.
#[derive(Clone, Debug)]
pub struct Judge<'a> {
    pub(crate) tasks: &'a [Task],
    pub(crate) delays: Delays,
}

impl<'a> Judge<'a> {
    /// Refuses by 5 to 11, 16 and 18.
    pub fn new(table: &'a Table) -> Result<Judge<'a>, Refusal> {
        table.check_to_judge()?;
        Ok(Judge::of_accepted(table))
    }

    /// The same for a table that has been checked to be judged.
    pub fn of_accepted(table: &'a Table) -> Judge<'a> {
        assert!(!table.salvaged(), "a salvaged table is never judged");
        Judge { tasks: table.tasks(), delays: Delays::new(table) }
    }

    /// One task, `number` from 1, from a start.
    pub fn one(&self, number: u8, start: u64) -> Result<Answer, Refusal> {
        let i = usize::from(number).wrapping_sub(1);
        let task = self.tasks.get(i).ok_or(Refusal::plain(12))?;
        if start > task.d {
            return Err(Refusal::at(13, i));
        }
        self.rounds(i, start)
    }

    /// All tasks. Starts that are not given are 0; those beyond the tasks are ignored.
    pub fn all(&self, starts: &[u64]) -> Result<[Answer; TASKS], Refusal> {
        first_fault(13, self.tasks.iter().zip(starts).map(|(task, &start)| start > task.d))?;
        let mut answers = [Answer::default(); TASKS];
        for (i, answer) in answers.iter_mut().enumerate().take(self.tasks.len()) {
            *answer = self.rounds(i, starts.get(i).copied().unwrap_or(0))?;
        }
        Ok(answers)
    }

    /// The rounds of task `i` (from 0) from a start that is not above its deadline, or refusal 14.
    ///
    /// F never falls as t rises, so that a value below its t can only be met in the first round.
    fn rounds(&self, i: usize, start: u64) -> Result<Answer, Refusal> {
        let task = &self.tasks[i];
        let mut t = start.max(task.c);
        let mut rounds = 0;
        loop {
            let (response, by) = self.response(i, t);
            rounds += 1;
            if response < u128::from(t) {
                return Err(Refusal::at(14, i));
            }
            if response == u128::from(t) {
                return Ok(Answer { verdict: Verdict::Holds { bound: t, by }, rounds });
            }
            if response > u128::from(task.d) {
                return Ok(Answer { verdict: Verdict::Misses, rounds });
            }
            t = response as u64;
        }
    }

    /// F(t) of task `i`, and the delay that is the smaller there.
    fn response(&self, i: usize, t: u64) -> (u128, By) {
        let own = &self.tasks[i];
        let mut execution = u128::from(own.c);
        let mut requests = u128::from(own.h);
        let mut others = [0; CORES];
        for (j, task) in self.tasks.iter().enumerate() {
            if task.core != own.core {
                others[core_index(task)] += u128::from(t.div_ceil(task.t) + 1) * u128::from(task.h);
            } else if j < i {
                let releases = u128::from(t.div_ceil(task.t));
                execution += releases * u128::from(task.c);
                requests += releases * u128::from(task.h);
            }
        }
        let p = core_index(own);
        let request = self.delays.request(p) * requests;
        let job = self.delays.job(p, &others);
        let by = if request <= job { By::Request } else { By::Job };
        (execution + request.min(job), by)
    }
}

fn core_index(task: &Task) -> usize {
    usize::from(task.core) - 1
}
