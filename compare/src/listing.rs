//! What is listed for a file, and for a table with its answers.

use std::fmt::{self, Write};

use crate::file;
use crate::judge::{Answer, By, Judge, Verdict};
use crate::table::{Table, TASKS};

/// The whole listing, each line ended.
pub fn listing(bytes: &[u8]) -> String {
    match file::read_to_judge(bytes) {
        Ok(table) => lines(&table, &Judge::of_accepted(&table).all(&[]).expect("a fresh judgement is never refused")),
        Err(refusal) => format!("refused {}\n", refusal.number),
    }
}

/// The lines of an accepted table with its answers.
pub fn lines(table: &Table, answers: &[Answer; TASKS]) -> String {
    let mut out = String::with_capacity(2048);
    write_lines(table, answers, &mut out).expect("a String takes every write");
    out
}

fn write_lines(table: &Table, answers: &[Answer; TASKS], out: &mut String) -> fmt::Result {
    writeln!(out, "task core verdict bound by rounds")?;
    for (at, (task, answer)) in table.tasks().iter().zip(answers).enumerate() {
        write_line(out, at + 1, task.core, answer)?;
    }
    match answers[..table.tasks().len()].iter().position(|answer| answer.verdict == Verdict::Misses) {
        Some(at) => writeln!(out, "first miss {}", at + 1),
        None => writeln!(out, "all hold"),
    }
}

fn write_line(out: &mut String, number: usize, core: u8, answer: &Answer) -> fmt::Result {
    let rounds = answer.rounds;
    match answer.verdict {
        Verdict::Holds { bound, by } => writeln!(out, "{number} {core} holds {bound} {} {rounds}", name(by)),
        Verdict::Misses => writeln!(out, "{number} {core} misses - - {rounds}"),
    }
}

pub fn name(by: By) -> &'static str {
    match by {
        By::Request => "request",
        By::Job => "job",
    }
}
