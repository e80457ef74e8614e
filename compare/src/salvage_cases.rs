//! Cases of salvaging (RULES 7.7 to 7.9, 9.5): files cut at every length, altered, too long, with a record at fault; and what becomes of the
//! new files.

use std::collections::BTreeSet;

use compare_model::file::{self, file_length, record_at, LONGEST, LONGEST_BY_HEADER, RECORD};
use compare_model::gen::{self, Draft, Rng};
use compare_model::listing::listing;
use compare_model::table::{Task, CORES, H_HIGHEST, PARTITIONS, SALVAGED_BIT, TASKS, T_HIGHEST, T_LOWEST};

use crate::bus_cases::TURN;
use crate::cases::{calls, listed, plain, view};
use crate::comparer::{Comparer, Difference, Reaches};

type Outcome = Result<(), Difference>;
type Fault = fn(&mut Draft);
/// The counts promised and kept and the number where it stopped, or the refusal.
type Told = Result<[u8; 3], u16>;

/// What `ryb_carry` adds to a refusal of the older file, and of the newer.
const OLDER: u32 = 65536;
const NEWER: u32 = 2 * OLDER;

pub fn all(on: &mut Comparer, rng: &mut Rng) -> Outcome {
    let mut cases = Cases { on, followed: BTreeSet::new() };
    for draft in tables(rng) {
        let file = draft.file();
        cases.cuts(&file)?;
        cases.longer(rng, &file)?;
        cases.altered(rng, &file)?;
    }
    cases.promises()?;
    cases.records_at_fault()?;
    cases.short_of_the_sets()?;
    cases.order()
}

/// A random table salvaged: nothing judges it. It and the table itself cut somewhere, and with a record at fault.
pub fn random(on: &mut Comparer, rng: &mut Rng, draft: &Draft) -> Outcome {
    let salvaged = draft.salvaged();
    calls(on, &salvaged.file())?;
    unjudged(on, &salvaged.file())?;
    for draft in [draft, &salvaged] {
        let file = draft.file();
        let length = rng.index(file.len());
        expect(on, &file[..length], LONGEST, told_of_cut(&file, length))?;
        let at = rng.index(draft.tasks.len());
        let broken = with_task(draft, at, rng.pick(&tasks_at_fault(&draft.tasks[at], file[0])));
        let told = told_of_records(file[2], at);
        let Some(new) = expect(on, &broken.file(), LONGEST, told)? else { continue };
        rooms(on, &broken.file(), new.len(), told)?;
        accepted_but_not_listed(on, &new)?;
    }
    Ok(())
}

/// The listed table, on a DRAM and on a bus, each also salvaged; the largest table; the smallest.
fn tables(rng: &mut Rng) -> [Draft; 6] {
    let (dram, bus) = (listed(), listed().on_bus(TURN));
    let (dram_salvaged, bus_salvaged) = (dram.salvaged(), bus.salvaged());
    [dram, bus, dram_salvaged, bus_salvaged, gen::measured(rng, TASKS, CORES, true), plain(1, 1, 1)]
}

/// The cases, and the new files that were followed.
struct Cases<'a> {
    on: &'a mut Comparer,
    followed: BTreeSet<Vec<u8>>,
}

impl Cases<'_> {
    /// A file of which this is told, with room enough. The new file is followed, once.
    fn expect(&mut self, file: &[u8], told: Told) -> Outcome {
        if let Some(new) = expect(self.on, file, LONGEST, told)? {
            if self.followed.insert(new.clone()) {
                follow(self.on, file, &new, told)?;
            }
        }
        Ok(())
    }

    /// A file that is refused so, whatever the room is.
    fn refused(&mut self, file: &[u8], code: u16) -> Outcome {
        expect(self.on, file, 0, Err(code))?;
        self.expect(file, Err(code))
    }

    /// An accepted file cut at every length, and whole.
    fn cuts(&mut self, file: &[u8]) -> Outcome {
        (0..file.len()).try_for_each(|length| self.expect(&file[..length], told_of_cut(file, length)))?;
        self.refused(file, 19)
    }

    /// An accepted file with bytes behind it.
    fn longer(&mut self, rng: &mut Rng, file: &[u8]) -> Outcome {
        for more in [1, 12, RECORD, 100, LONGEST_BY_HEADER] {
            let longer: Vec<u8> = file.iter().copied().chain((0..more).map(|_| rng.word() as u8)).collect();
            self.expect(&longer, Ok([file[2], file[2], 0]))?;
        }
        Ok(())
    }

    /// An accepted file with one byte altered, with its trailer and with one that fits.
    fn altered(&mut self, rng: &mut Rng, file: &[u8]) -> Outcome {
        for at in 0..file.len() {
            for change in [1, rng.between(2, 255) as u8] {
                let mut altered = file.to_vec();
                altered[at] ^= change;
                if let Some(new) = self.on.salvage(&altered, LONGEST)?.new_file() {
                    accepted_but_not_listed(self.on, new)?;
                }
                file::seal(&mut altered);
                self.on.salvage(&altered, LONGEST)?;
            }
        }
        Ok(())
    }

    /// The listed table's file with every count of tasks and of cores. A trailer is too short for a record.
    fn promises(&mut self) -> Outcome {
        let file = listed().file();
        for count in 0..=u8::MAX {
            let told = match count {
                1 | 2 => Ok([count, count, 0]),
                3 => Err(19),
                4..=32 => Ok([count, 3, 4]),
                _ => Err(5),
            };
            self.expect(&with_byte(&file, 2, count), told)?;
            let other_cores = with_byte(&file, 0, count);
            match count {
                0 | 9..=51 => self.refused(&other_cores, 5)?,
                52.. => self.refused(&other_cores, 17)?,
                _ => {
                    self.on.salvage(&other_cores, LONGEST)?;
                }
            }
        }
        Ok(())
    }

    /// A record at fault in each place, with good ones behind it, and with one that has a lower number's fault. Its fault is told before 18.
    fn records_at_fault(&mut self) -> Outcome {
        let dram = plain(3, 3, 5);
        for sound in [dram.on_bus(TURN), dram.salvaged(), dram] {
            for at in 0..5 {
                for task in tasks_at_fault(&sound.tasks[at], 3) {
                    let mut draft = with_task(&sound, at, task);
                    let judged = self.on.judge(&draft.file(), &[], Reaches::all(TASKS))?;
                    assert!((9..=11).contains(&(judged % 256)), "the case isn't what it is meant to be");
                    self.expect(&draft.file(), told_of_records(5, at))?;
                    draft.tasks[4].core = 9;
                    self.expect(&draft.file(), told_of_records(5, at))?;
                }
            }
        }
        Ok(())
    }

    /// Files that end before their sets do, at their end and behind it, also where no count of cores like theirs passes.
    fn short_of_the_sets(&mut self) -> Outcome {
        for length in 0..4 {
            for byte in [0, 1, 2, 255] {
                self.refused(&vec![byte; length], 17)?;
            }
        }
        for cores in [0, 9, 10, 255] {
            let (file, end) = (plain(cores, 2, 3).file(), record_at(cores, 1));
            self.refused(&file[..end - 1], 17)?;
            for length in [end, end + 1, file.len()] {
                self.refused(&file[..length], 5)?;
            }
        }
        Ok(())
    }

    /// Each refusal of what stands before the records: alone, with each later one, with no record kept and with no room, and cut short of the sets.
    fn order(&mut self) -> Outcome {
        let partitions = |draft: &mut Draft| draft.partitions = PARTITIONS as u8 + 1;
        let fourth = |draft: &mut Draft| draft.fourth |= 4;
        let tasks = |draft: &mut Draft| draft.tasks.resize(TASKS + 1, draft.tasks[0]);
        let set = |draft: &mut Draft| draft.sets[1] = 0;
        let of_dram: [(u16, Fault); 6] = [
            (5, partitions),
            (5, fourth),
            (5, tasks),
            (6 + 3 * 256, |draft| draft.timing[2] = 0),
            (7 + 256, |draft| draft.timing[7] = 4),
            (8 + 2 * 256, set),
        ];
        let of_bus: [(u16, Fault); 4] = [
            (5, fourth),
            (16 + 256, |draft| draft.timing[0] = 0),
            (16 + 5 * 256, |draft| draft.timing[4] = 1),
            (8 + 2 * 256, set),
        ];
        let sound = plain(3, 3, 4);
        for (sound, faults) in [(sound.on_bus(TURN), &of_bus[..]), (sound.salvaged(), &of_dram), (sound, &of_dram)] {
            for (first, &(code, fault)) in faults.iter().enumerate() {
                for (_, later) in &faults[first..] {
                    let mut draft = sound.clone();
                    later(&mut draft);
                    fault(&mut draft);
                    self.refused_before_its_records(&draft, code)?;
                }
            }
            self.refused_before_its_records(&with_task(&sound, 0, Task::default()), 17)?;
        }
        Ok(())
    }

    /// A table that is refused so, also where it ends behind its sets, or has no record that passes. Where it ends before, it is refused by 17.
    fn refused_before_its_records(&mut self, draft: &Draft, code: u16) -> Outcome {
        let (file, end) = (draft.file(), record_at(draft.sets.len(), 1));
        self.refused(&file, code)?;
        self.refused(&with_task(draft, 0, Task::default()).file(), code)?;
        for length in [end, end + RECORD - 1] {
            self.refused(&file[..length], code)?;
        }
        self.refused(&file[..end - 1], 17)
    }
}

/// Both tell this of a salvage into so much room; answers the new file. The own reading is held to it too, so that a case is what it is
/// meant to be.
fn expect(on: &mut Comparer, file: &[u8], room: usize, told: Told) -> Result<Option<Vec<u8>>, Difference> {
    let salvage = on.salvage(file, room)?;
    assert_eq!(salvage.told(), told, "the case isn't what it is meant to be");
    Ok(salvage.new_file().map(<[u8]>::to_vec))
}

/// What is told of an accepted file that is cut at this length.
fn told_of_cut(file: &[u8], length: usize) -> Told {
    let records = length.saturating_sub(record_at(usize::from(file[0]), 1)) / RECORD;
    told_of_records(file[2], records)
}

/// What is told where so many records were promised and no more than these pass.
fn told_of_records(promised: u8, passing: usize) -> Told {
    match passing as u8 {
        0 => Err(17),
        kept if kept < promised => Ok([promised, kept, kept + 1]),
        _ => Ok([promised, promised, 0]),
    }
}

/// A new file: shown like any other, and judged by nothing. What it was made of needs its length of room. It can be cut and salvaged again.
fn follow(on: &mut Comparer, cut: &[u8], new: &[u8], told: Told) -> Outcome {
    shown(on, cut, new)?;
    unjudged(on, new)?;
    rooms(on, cut, new.len(), told)?;
    again(on, new)?;
    on.tally.salvages.followed += 1;
    Ok(())
}

/// It is accepted, and each record is shown, with the bytes of the cut file.
fn shown(on: &mut Comparer, cut: &[u8], new: &[u8]) -> Outcome {
    assert_eq!(on.read(new)?, 0, "a new file is accepted");
    let tasks = on.tasks(new)? as u8;
    for number in 1..=tasks {
        assert_eq!(on.view(new, number)?, 0, "a kept record is shown");
        let at = on.record(new, number)?;
        assert_eq!(new[at..at + RECORD], cut[at..at + RECORD], "a kept record is the cut file's");
    }
    view(on, new, tasks + 1)
}

/// No call judges a salvaged file: from a late start, into no output, as one of a pair. But for its bit it would be one worsened.
fn unjudged(on: &mut Comparer, file: &[u8]) -> Outcome {
    for (starts, places) in [(&[][..], TASKS), (&[u64::MAX], TASKS), (&[], 0)] {
        assert_eq!(on.judge(file, starts, Reaches::all(places))?, 18, "a salvaged file isn't judged");
    }
    let line = "refused 18\n";
    assert_eq!(listing(file), line, "a salvaged file isn't judged");
    for room in [0, line.len() - 1, line.len(), line.len() + 1] {
        on.list(file, room)?;
    }
    let mut like = with_byte(file, 3, file[3] & !SALVAGED_BIT);
    file::seal(&mut like);
    assert_eq!(on.worsens(&like, &like)?, 1, "the pair isn't what it is meant to be");
    for (older, newer, code) in [
        (file, &like[..], 18 + OLDER),
        (&like, file, 18 + NEWER),
        (file, file, 18 + OLDER),
        (file, &[], 18 + OLDER),
        (&[], file, 1 + OLDER),
    ] {
        assert_eq!(on.carry(older, newer, Reaches::all(TASKS))?, code, "the pair isn't what it is meant to be");
        assert_eq!(on.worsens(older, newer)?, 0, "the pair isn't what it is meant to be");
    }
    on.tally.salvages.unjudged += 1;
    Ok(())
}

/// A cut file whose new file has this length, into no room, one byte too few, just enough and more.
fn rooms(on: &mut Comparer, cut: &[u8], length: usize, told: Told) -> Outcome {
    for room in [0, length - 1] {
        expect(on, cut, room, Err(15))?;
    }
    for room in [length, length + 1] {
        expect(on, cut, room, told)?;
    }
    Ok(())
}

/// A new file isn't cut. What is salvaged of its own cuts, behind each record and before its last byte, is it with fewer records.
fn again(on: &mut Comparer, new: &[u8]) -> Outcome {
    expect(on, new, LONGEST, Err(19))?;
    let (cores, tasks) = (usize::from(new[0]), usize::from(new[2]));
    for length in (1..=tasks).map(|number| record_at(cores, number + 1)).chain([new.len() - 1]) {
        let once_more = expect(on, &new[..length], LONGEST, told_of_cut(new, length))?.expect("a record is kept");
        let kept = ((length - record_at(cores, 1)) / RECORD).min(tasks);
        let mut fewer = with_byte(&new[..file_length(cores, kept)], 2, kept as u8);
        file::seal(&mut fewer);
        assert_eq!(once_more, fewer, "the bit stays, and all else");
    }
    Ok(())
}

/// A new file of which there are many: it is accepted, and its listing is a refusal.
fn accepted_but_not_listed(on: &mut Comparer, new: &[u8]) -> Outcome {
    assert_eq!(on.read(new)?, 0, "a new file is accepted");
    assert_eq!(on.list(new, LONGEST)?, "refused 18\n".len(), "a salvaged file isn't judged");
    Ok(())
}

/// The task with each fault that 9 to 11 find, on so many cores.
fn tasks_at_fault(sound: &Task, cores: u8) -> Vec<Task> {
    let mut tasks = Vec::new();
    tasks.extend([0, cores + 1, 255].map(|core| Task { core, ..*sound }));
    tasks.extend([T_LOWEST - 1, T_HIGHEST + 1].map(|t| Task { t, d: t.min(sound.d), c: 1, ..*sound }));
    tasks.extend([0, sound.t + 1, u64::MAX].map(|d| Task { d, ..*sound }));
    tasks.extend([0, sound.d + 1, u64::MAX].map(|c| Task { c, ..*sound }));
    tasks.extend([H_HIGHEST + 1, u32::MAX].map(|h| Task { h, ..*sound }));
    tasks
}

fn with_task(draft: &Draft, at: usize, task: Task) -> Draft {
    let mut changed = draft.clone();
    changed.tasks[at] = task;
    changed
}

fn with_byte(file: &[u8], at: usize, value: u8) -> Vec<u8> {
    let mut changed = file.to_vec();
    changed[at] = value;
    changed
}
