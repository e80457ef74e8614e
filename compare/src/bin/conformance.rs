//! Replays a stream of conformance cases through the own reading, and compares with the stored answers.
//!
//! `conformance STDIN STDOUT`: the two files of a stream, in the form that `crates/conform/README.md` states.

use std::env;
use std::fs;
use std::io;
use std::process::ExitCode;

use compare_model::carry;
use compare_model::file::{self, part};
use compare_model::judge::{Answer, By, Judge, Verdict};
use compare_model::listing::{lines, listing, name};
use compare_model::refusal::Refusal;
use compare_model::salvage::{salvage, Salvaged};
use compare_model::table::{Table, Task, FIGURES, TASKS};

/// Where the sets and the tasks are in a raw table: after the counts, the timing, tRFC and tREFI.
const RAW_SETS: usize = 4 + 2 * FIGURES + 8;
const RAW_TASKS: usize = RAW_SETS + 16;
/// A raw task is a record and its J.
const RAW_TASK: usize = 37;
/// A raw table as a whole.
const RAW: usize = RAW_TASKS + RAW_TASK * TASKS;
/// Writing goes to this much room of this byte.
const ROOM: usize = 2048;
const FILLER: u8 = 165;

fn main() -> io::Result<ExitCode> {
    let arguments: Vec<String> = env::args().skip(1).collect();
    let [cases, answers] = arguments.as_slice() else {
        eprintln!("usage: conformance STDIN STDOUT");
        return Ok(ExitCode::from(2));
    };
    let cases = fs::read(cases)?;
    let mut expected = fs::read_to_string(answers)?;
    let mut rest = cases.as_slice();
    let (mut count, mut differences) = (0, 0);
    while let Some((letter, payload, after)) = next_case(rest) {
        let answer = answer(letter, payload);
        count += 1;
        if let Some(left) = expected.strip_prefix(&answer) {
            expected = left.to_owned();
        } else {
            differences += 1;
            let theirs: String = expected.split_inclusive('\n').take(answer.lines().count()).collect();
            println!("case {count}, {letter}, of {} bytes: ours\n{answer}and theirs\n{theirs}", payload.len());
            expected = expected.split_inclusive('\n').skip(answer.lines().count()).collect();
        }
        rest = after;
    }
    println!("conformance: {count} cases, {differences} differ, {} bytes of answers left over", expected.len());
    Ok(if differences == 0 && expected.is_empty() { ExitCode::SUCCESS } else { ExitCode::FAILURE })
}

/// The letter and the payload of the first case, and what comes after it.
fn next_case(stream: &[u8]) -> Option<(char, &[u8], &[u8])> {
    let (&letter, stream) = stream.split_first()?;
    let length = usize::from(u16::from_le_bytes(part(stream, 0)));
    let (payload, after) = stream[2..].split_at(length);
    Some((char::from(letter), payload, after))
}

/// What is printed for a case, each line ended.
fn answer(letter: char, payload: &[u8]) -> String {
    match letter {
        'L' => listing(payload),
        'H' => line(file::whole(payload).map(|()| "whole".to_owned())),
        'R' => line(reading(payload)),
        'V' => line(file::view(&payload[1..], payload[0]).map(|part| format!("part {}", hex(part)))),
        'W' => into_room(payload, |out, bytes| writing(out, &raw(bytes))),
        'S' => into_room(payload, salvaging),
        'J' => line(judge_one(payload[0], u64::from_le_bytes(part(payload, 1)), &raw(&payload[9..]))),
        'A' => fields(judge_all(&payload[..8 * TASKS], &raw(&payload[8 * TASKS..]))),
        'K' => fields(judge_carried(&raw(payload), &raw(&payload[RAW..]))),
        'T' => list_raw(&payload[..8 * TASKS], &raw(&payload[8 * TASKS..])),
        _ => panic!("no operation has the letter {letter}"),
    }
}

fn line(result: Result<String, Refusal>) -> String {
    match result {
        Ok(text) => text + "\n",
        Err(refusal) => format!("{}\n", refused(refusal)),
    }
}

fn refused(refusal: Refusal) -> String {
    format!("refused {} {}", refusal.number, refusal.place)
}

fn reading(bytes: &[u8]) -> Result<String, Refusal> {
    let mut out = [FILLER; ROOM];
    let length = file::write(&file::read(bytes)?, &mut out)?;
    Ok(format!("accepted {length} {}", if &out[..length] == bytes { "same" } else { "differs" }))
}

/// What is said of an operation that writes to as much room as the payload's first two bytes say, and what the whole room weighs then.
fn into_room(payload: &[u8], operation: impl Fn(&mut [u8], &[u8]) -> String) -> String {
    let (room, payload) = payload.split_at(2);
    let mut out = [FILLER; ROOM];
    let room = usize::from(u16::from_le_bytes(part(room, 0))).min(ROOM);
    let said = operation(&mut out[..room], payload);
    let weight: u64 = out.iter().zip(1..).map(|(&byte, place)| u64::from(byte) * place).sum();
    format!("{said} {weight}\n")
}

fn writing(out: &mut [u8], table: &Table) -> String {
    match file::write(table, out) {
        Ok(length) => format!("written {length}"),
        Err(refusal) => refused(refusal),
    }
}

fn salvaging(out: &mut [u8], bytes: &[u8]) -> String {
    match salvage(bytes, out) {
        Ok(Salvaged { promised, kept, stopped, length }) => format!("salvaged {length} {promised} {kept} {stopped}"),
        Err(refusal) => format!("{} 0 0 0", refused(refusal)),
    }
}

fn judge_one(number: u8, start: u64, table: &Table) -> Result<String, Refusal> {
    let answer = Judge::new(table)?.one(number, start)?;
    Ok(match answer.verdict {
        Verdict::Holds { bound, by } => format!("holds {bound} {} {}", name(by), answer.rounds),
        Verdict::Misses => format!("misses {}", answer.rounds),
    })
}

fn all(starts: &[u8], table: &Table) -> Result<[Answer; TASKS], Refusal> {
    let starts: Vec<u64> = starts.chunks_exact(8).map(|bytes| u64::from_le_bytes(part(bytes, 0))).collect();
    Judge::new(table)?.all(&starts)
}

/// A table that is passed directly, listed: where only its starts are refused, with misses in 0 rounds.
fn list_raw(starts: &[u8], table: &Table) -> String {
    match table.check_to_judge() {
        Ok(()) => lines(table, &all(starts, table).unwrap_or([Answer::default(); TASKS])),
        Err(refusal) => format!("refused {}\n", refusal.number),
    }
}

/// What is said before the fields of all answers, and these.
type Headed = (&'static str, [Answer; TASKS]);

fn judge_all(starts: &[u8], table: &Table) -> Result<Headed, Refusal> {
    Ok(("all", all(starts, table)?))
}

fn judge_carried(older: &Table, newer: &Table) -> Result<Headed, Refusal> {
    older.check_to_judge()?;
    newer.check_to_judge()?;
    let head = if carry::worsens(older, newer) { "carried" } else { "fresh" };
    Ok((head, carry::answers(older, newer)))
}

/// One line; of a refusal with misses in 0 rounds.
fn fields(result: Result<Headed, Refusal>) -> String {
    let (head, answers) = match result {
        Ok((head, answers)) => (head.to_owned(), answers),
        Err(refusal) => (refused(refusal), [Answer::default(); TASKS]),
    };
    let fields: Vec<String> = answers.iter().map(field).collect();
    format!("{head} {}\n", fields.join(" "))
}

fn field(answer: &Answer) -> String {
    let rounds = answer.rounds;
    match answer.verdict {
        Verdict::Holds { bound, by: By::Request } => format!("{bound}/r/{rounds}"),
        Verdict::Holds { bound, by: By::Job } => format!("{bound}/j/{rounds}"),
        Verdict::Misses => format!("-/{rounds}"),
    }
}

/// A table that is passed directly.
fn raw(bytes: &[u8]) -> Table {
    let [cores, partitions, tasks, fourth] = part(bytes, 0);
    let mut table = Table { cores, partitions, tasks, fourth, ..Table::default() };
    for (at, figure) in table.timing.iter_mut().enumerate() {
        *figure = u16::from_le_bytes(part(bytes, 4 + 2 * at));
    }
    for (at, set) in table.sets.iter_mut().enumerate() {
        *set = u16::from_le_bytes(part(bytes, RAW_SETS + 2 * at));
    }
    for (at, task) in table.task.iter_mut().enumerate() {
        let record = &bytes[RAW_TASKS + RAW_TASK * at..];
        *task = Task {
            core: record[0],
            c: u64::from_le_bytes(part(record, 1)),
            t: u64::from_le_bytes(part(record, 9)),
            d: u64::from_le_bytes(part(record, 17)),
            h: u32::from_le_bytes(part(record, 25)),
        };
    }
    table
}

fn hex(bytes: &[u8]) -> String {
    bytes.iter().map(|byte| format!("{byte:02x}")).collect()
}
