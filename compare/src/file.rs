//! The table file: reading, writing, the record of a task. Refusals 1 to 4, 12 and 15.

use crate::refusal::Refusal;
use crate::table::{Table, Task, CORES, FIGURES, TASKS};

pub const HEADER: usize = 4;
pub const TIMING_AT: usize = HEADER;
pub const SETS_AT: usize = TIMING_AT + 2 * FIGURES;
pub const RECORD: usize = 29;
pub const TRAILER: usize = 12;
/// A file with no core and no task, which is the shortest that has a trailer.
pub const SHORTEST: usize = SETS_AT + TRAILER;
/// The longest file of an accepted table.
pub const LONGEST: usize = file_length(CORES, TASKS);
/// The longest file that the header's counts can ask for.
pub const LONGEST_BY_HEADER: usize = file_length(255, 255);

pub const fn file_length(cores: usize, tasks: usize) -> usize {
    SHORTEST + 2 * cores + RECORD * tasks
}

/// Where the record of task `number` (from 1) starts.
pub const fn record_at(cores: usize, number: usize) -> usize {
    SETS_AT + 2 * cores + RECORD * (number - 1)
}

/// The table of a file, or the first of refusals 1 to 11 and 16 that applies.
pub fn read(file: &[u8]) -> Result<Table, Refusal> {
    whole(file)?;
    let mut table = read_board(file)?;
    for (task, record) in table.task.iter_mut().zip(records(file)) {
        *task = read_record(record);
    }
    table.check()?;
    Ok(table)
}

/// The table of a file that is to be judged: refused by 18 too.
pub fn read_to_judge(file: &[u8]) -> Result<Table, Refusal> {
    let table = read(file)?;
    table.check_not_salvaged()?;
    Ok(table)
}

/// The counts, timing figures and sets of a file that reaches their end, unless the counts are refused by 5.
pub fn read_board(file: &[u8]) -> Result<Table, Refusal> {
    let [cores, partitions, tasks, fourth] = part(file, 0);
    let mut table = Table { cores, partitions, tasks, fourth, ..Table::default() };
    table.check_header()?;
    read_figures(&file[TIMING_AT..], &mut table.timing);
    read_figures(&file[SETS_AT..], &mut table.sets[..usize::from(cores)]);
    Ok(table)
}

fn read_figures(bytes: &[u8], figures: &mut [u16]) {
    for (figure, bytes) in figures.iter_mut().zip(bytes.chunks_exact(2)) {
        *figure = u16::from_le_bytes(part(bytes, 0));
    }
}

/// The records that the counts promise, as far as the file reaches their ends.
pub fn records(file: &[u8]) -> impl Iterator<Item = &[u8]> {
    let [cores, _, tasks, _] = part::<HEADER>(file, 0).map(usize::from);
    file[record_at(cores, 1)..].chunks_exact(RECORD).take(tasks)
}

/// Writes the file of a table and answers its length. Refuses by 5 to 11, 16 and 15, and then writes nothing.
pub fn write(table: &Table, out: &mut [u8]) -> Result<usize, Refusal> {
    table.check()?;
    let length = file_length(table.sets().len(), table.tasks().len());
    let file = out.get_mut(..length).ok_or(Refusal::plain(15))?;
    write_body(table, &mut file[..length - TRAILER]);
    seal(file);
    Ok(length)
}

/// The part of the file that is the record of task `number`. Refuses by 1 to 11, 16 and 12.
pub fn view(file: &[u8], number: u8) -> Result<&[u8], Refusal> {
    let table = read(file)?;
    if !(1..=table.tasks).contains(&number) {
        return Err(Refusal::plain(12));
    }
    let at = record_at(usize::from(table.cores), usize::from(number));
    Ok(&file[at..at + RECORD])
}

/// Writes the trailer of the bytes before it. Sums that don't fit are cut, and so are wrong.
pub fn seal(file: &mut [u8]) {
    let (body, trailer) = file.split_at_mut(file.len() - TRAILER);
    let (sum, running) = sums(body);
    trailer[..4].copy_from_slice(&(body.len() as u32).to_le_bytes());
    trailer[4..8].copy_from_slice(&(sum as u32).to_le_bytes());
    trailer[8..].copy_from_slice(&(running as u32).to_le_bytes());
}

/// Did a file come whole? Else the first of refusals 1 to 4 that applies.
pub fn whole(file: &[u8]) -> Result<(), Refusal> {
    if file.len() < SHORTEST {
        return Err(Refusal::plain(1));
    }
    if file.len() != file_length(usize::from(file[0]), usize::from(file[2])) {
        return Err(Refusal::plain(2));
    }
    let (body, trailer) = file.split_at(file.len() - TRAILER);
    if u32::from_le_bytes(part(trailer, 0)) as usize != body.len() {
        return Err(Refusal::plain(3));
    }
    let stated = (u32::from_le_bytes(part(trailer, 4)).into(), u32::from_le_bytes(part(trailer, 8)).into());
    if sums(body) != stated {
        return Err(Refusal::plain(4));
    }
    Ok(())
}

/// The sum of the bytes, and the sum of the running sums after each of them.
pub fn sums(bytes: &[u8]) -> (u64, u64) {
    bytes.iter().fold((0, 0), |(sum, running), &byte| {
        let sum = sum + u64::from(byte);
        (sum, running + sum)
    })
}

fn write_body(table: &Table, body: &mut [u8]) {
    let (head, tasks) = body.split_at_mut(SETS_AT + 2 * table.sets().len());
    head[..HEADER].copy_from_slice(&[table.cores, table.partitions, table.tasks, table.fourth]);
    let pairs = table.timing.iter().chain(table.sets());
    for (bytes, pair) in head[TIMING_AT..].chunks_exact_mut(2).zip(pairs) {
        bytes.copy_from_slice(&pair.to_le_bytes());
    }
    for (record, task) in tasks.chunks_exact_mut(RECORD).zip(table.tasks()) {
        write_record(task, record);
    }
}

pub fn read_record(record: &[u8]) -> Task {
    Task {
        core: record[0],
        c: u64::from_le_bytes(part(record, 1)),
        t: u64::from_le_bytes(part(record, 9)),
        d: u64::from_le_bytes(part(record, 17)),
        h: u32::from_le_bytes(part(record, 25)),
    }
}

/// Writes the 29 bytes of a task.
pub fn write_record(task: &Task, record: &mut [u8]) {
    record[0] = task.core;
    record[1..9].copy_from_slice(&task.c.to_le_bytes());
    record[9..17].copy_from_slice(&task.t.to_le_bytes());
    record[17..25].copy_from_slice(&task.d.to_le_bytes());
    record[25..].copy_from_slice(&task.h.to_le_bytes());
}

/// The `N` bytes from `at`.
pub fn part<const N: usize>(bytes: &[u8], at: usize) -> [u8; N] {
    let mut part = [0; N];
    part.copy_from_slice(&bytes[at..at + N]);
    part
}
