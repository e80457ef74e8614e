//! What is whole of a file that was cut, as a new file (RULES 7.7, 7.8). Refusals 19, 17, 5 to 8 or 16, 17 and 15, in that order.

use crate::file::{self, file_length, record_at, HEADER, TRAILER};
use crate::refusal::Refusal;
use crate::table::{Table, SALVAGED_BIT};

/// What is told of a salvage: its three counts, and the length of the new file.
#[derive(Clone, Copy, Debug, PartialEq, Eq)]
pub struct Salvaged {
    pub promised: u8,
    pub kept: u8,
    /// The number of the record where it stopped, 0 where none is lacking.
    pub stopped: u8,
    pub length: usize,
}

/// Writes what is whole of a file that reading refuses as a new file. Where refused it writes nothing.
pub fn salvage(bytes: &[u8], out: &mut [u8]) -> Result<Salvaged, Refusal> {
    if file::read(bytes).is_ok() {
        return Err(Refusal::plain(19));
    }
    let board = board(bytes)?;
    let kept = kept(&board, bytes);
    if kept == 0 {
        return Err(Refusal::plain(17));
    }
    let length = file_length(usize::from(board.cores), usize::from(kept));
    write(bytes, kept, out.get_mut(..length).ok_or(Refusal::plain(15))?);
    let stopped = if kept < board.tasks { kept + 1 } else { 0 };
    Ok(Salvaged { promised: board.tasks, kept, stopped, length })
}

/// What stands before the records, or 17 where the file ends before it does, or the first of 5 to 8 and 16.
fn board(bytes: &[u8]) -> Result<Table, Refusal> {
    if bytes.len() < HEADER || bytes.len() < record_at(usize::from(bytes[0]), 1) {
        return Err(Refusal::plain(17));
    }
    let board = file::read_board(bytes)?;
    board.check_board()?;
    Ok(board)
}

/// How many records stand before the first that the file doesn't reach the end of, or that 9 to 11 find a fault in.
fn kept(board: &Table, bytes: &[u8]) -> u8 {
    let passing = file::records(bytes).take_while(|record| board.task_passes(&file::read_record(record)));
    passing.count() as u8
}

/// The new file: the bytes of the other up to the last record that is kept, but for the count and the fourth byte.
fn write(bytes: &[u8], kept: u8, new: &mut [u8]) {
    let body = new.len() - TRAILER;
    new[..body].copy_from_slice(&bytes[..body]);
    new[2] = kept;
    new[3] |= SALVAGED_BIT;
    file::seal(new);
}

#[cfg(test)]
mod tests {
    use super::*;
    use crate::file::{LONGEST, RECORD};
    use crate::gen::{draft, Rng};

    /// The new file is the table's with as many tasks as the cut file has whole records, marked and written as any other. The bytes behind it stay.
    #[test]
    fn cuts_of_random_tables() {
        let mut rng = Rng::new(7);
        for _ in 0..60 {
            let draft = draft(&mut rng);
            let draft = if rng.once_in(2) { draft.salvaged() } else { draft };
            let bytes = draft.file();
            let table = file::read(&bytes).expect("a draft is accepted");
            for length in 0..bytes.len() {
                let mut out = [0xA5; LONGEST];
                let told = salvage(&bytes[..length], &mut out);
                let records = length.saturating_sub(record_at(draft.sets.len(), 1)) / RECORD;
                let tasks = records.min(draft.tasks.len()) as u8;
                let mut expected = [0xA5; LONGEST];
                let fewer = Table { tasks, fourth: table.fourth | SALVAGED_BIT, ..table };
                let written = file::write(&fewer, &mut expected);
                assert_eq!(out, expected);
                let stopped = if tasks < table.tasks { tasks + 1 } else { 0 };
                let salvaged = |length| Salvaged { promised: table.tasks, kept: tasks, stopped, length };
                assert_eq!(told, written.map(salvaged).map_err(|_| Refusal::plain(17)));
            }
        }
    }
}
