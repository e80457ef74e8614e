//! The own reading's answers in the form of the C functions (`include/ryeobadum.h`).

use crate::carry;
use crate::file::{self, record_at};
use crate::judge::{Answer, By, Judge, Verdict};
use crate::listing::listing;
use crate::refusal::Refusal;
use crate::salvage::{self, Salvaged};

/// The number of an output that is too short for the tasks, which only the C functions refuse.
pub const SHORT_OUTPUT: u8 = 255;

/// `ryb_read`.
pub fn read(bytes: &[u8]) -> u16 {
    code(file::read(bytes).map(|_| ()))
}

/// `ryb_whole`.
pub fn whole(bytes: &[u8]) -> u16 {
    code(file::whole(bytes))
}

/// `ryb_tasks`.
pub fn tasks(bytes: &[u8]) -> usize {
    file::read(bytes).map_or(0, |table| table.tasks().len())
}

/// `ryb_judge`.
pub fn judge(bytes: &[u8], starts: &[u64], bounds: &mut [u64], rounds: &mut [u64], by: &mut [u8]) -> u16 {
    code(try_judge(bytes, starts, bounds, rounds, by))
}

/// `ryb_list`.
pub fn list(bytes: &[u8], out: &mut [u8]) -> usize {
    let text = listing(bytes);
    match out.get_mut(..text.len()) {
        Some(room) => {
            room.copy_from_slice(text.as_bytes());
            text.len()
        }
        None => 0,
    }
}

/// `ryb_view`.
pub fn view(bytes: &[u8], number: u8) -> u16 {
    code(file::view(bytes, number).map(|_| ()))
}

/// `ryb_record`.
pub fn record(bytes: &[u8], number: u8) -> usize {
    match file::view(bytes, number) {
        Ok(_) => record_at(usize::from(bytes[0]), usize::from(number)),
        Err(_) => 0,
    }
}

/// `ryb_carry`: a refusal with 65536 times the file that it is about, 1 the older and 2 the newer.
pub fn carry(older: &[u8], newer: &[u8], bounds: &mut [u64], rounds: &mut [u64], by: &mut [u8]) -> u32 {
    let refused = |refusal: Refusal, file: u32| u32::from(refusal.code()) + 65536 * file;
    let was = match file::read_to_judge(older) {
        Ok(table) => table,
        Err(refusal) => return refused(refusal, 1),
    };
    let is = match file::read_to_judge(newer) {
        Ok(table) => table,
        Err(refusal) => return refused(refusal, 2),
    };
    let answers = carry::answers(&was, &is);
    store(&answers[..is.tasks().len()], bounds, rounds, by).err().map_or(0, |refusal| refused(refusal, 0))
}

/// `ryb_worsens`.
pub fn worsens(older: &[u8], newer: &[u8]) -> u8 {
    match (file::read_to_judge(older), file::read_to_judge(newer)) {
        (Ok(was), Ok(is)) => carry::worsens(&was, &is).into(),
        _ => 0,
    }
}

/// `ryb_salvage`: the refusal, the three counts and the length of the new file in one word (RULES 10.3).
pub fn salvage(bytes: &[u8], out: &mut [u8]) -> u64 {
    match salvage::salvage(bytes, out) {
        Ok(salvaged) => salvage_word(salvaged),
        Err(refusal) => refusal.code().into(),
    }
}

/// The word of a salvage that is not refused.
fn salvage_word(salvaged: Salvaged) -> u64 {
    let Salvaged { promised, kept, stopped, length } = salvaged;
    u64::from(promised) << 16 | u64::from(kept) << 24 | u64::from(stopped) << 32 | (length as u64) << 40
}

fn code(result: Result<(), Refusal>) -> u16 {
    result.err().map_or(0, Refusal::code)
}

fn try_judge(
    bytes: &[u8],
    starts: &[u64],
    bounds: &mut [u64],
    rounds: &mut [u64],
    by: &mut [u8],
) -> Result<(), Refusal> {
    let table = file::read_to_judge(bytes)?;
    let answers = Judge::of_accepted(&table).all(starts)?;
    store(&answers[..table.tasks().len()], bounds, rounds, by)
}

/// The answers in the outputs, unless one is too short for them.
fn store(answers: &[Answer], bounds: &mut [u64], rounds: &mut [u64], by: &mut [u8]) -> Result<(), Refusal> {
    if [bounds.len(), rounds.len(), by.len()].iter().any(|&places| places < answers.len()) {
        return Err(Refusal::plain(SHORT_OUTPUT));
    }
    fill(bounds, answers, bound);
    fill(rounds, answers, |answer| answer.rounds);
    fill(by, answers, decided);
    Ok(())
}

/// Each answer's figure in its place.
fn fill<T>(out: &mut [T], answers: &[Answer], figure: impl Fn(&Answer) -> T) {
    for (place, answer) in out.iter_mut().zip(answers) {
        *place = figure(answer);
    }
}

fn bound(answer: &Answer) -> u64 {
    match answer.verdict {
        Verdict::Holds { bound, .. } => bound,
        Verdict::Misses => 0,
    }
}

fn decided(answer: &Answer) -> u8 {
    match answer.verdict {
        Verdict::Misses => 0,
        Verdict::Holds { by: By::Request, .. } => 1,
        Verdict::Holds { by: By::Job, .. } => 2,
    }
}
