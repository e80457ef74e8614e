//! The cases: fixed ones at every limit, and random tables, whole and damaged.

use compare_model::dram::{BL, DDR3_1333, RANGES};
use compare_model::file::{self, file_length, LONGEST, LONGEST_BY_HEADER, SHORTEST, TRAILER};
use compare_model::gen::{self, Draft, Rng};
use compare_model::judge::{Answer, Judge};
use compare_model::listing::listing;
use compare_model::table::{Table, Task, CORES, FIGURES, PARTITIONS, TASKS, T_HIGHEST, T_LOWEST};

use crate::border_cases;
use crate::bus_cases;
use crate::comparer::{Comparer, Difference, Reaches};
use crate::pairs;
use crate::run_cases;
use crate::salvage_cases;

type Outcome = Result<(), Difference>;

/// Where figures stand in the timing.
const CL: usize = 3;
const WL: usize = 4;
const TWTR: usize = 6;
const TWR: usize = 7;
const TRRD: usize = 8;
const TFAW: usize = 9;
const TRAS: usize = 10;
const TRTP: usize = 11;
const TRTRS: usize = 12;
const NCOLS: usize = 13;

/// All fixed cases, then `count` random tables.
pub fn all(on: &mut Comparer, seed: u64, count: u64) -> Outcome {
    let mut rng = Rng::new(seed);
    lengths(on)?;
    counts(on)?;
    figure_limits(on)?;
    relations(on)?;
    largest_of(on)?;
    set_limits(on)?;
    task_limits(on)?;
    trailers(on)?;
    sums(on)?;
    examples(on)?;
    bus_cases::all(on, &mut rng)?;
    wide_totals(on, &mut rng)?;
    border_cases::all(on, &mut rng)?;
    run_cases::all(on, &mut Rng::new(seed))?;
    salvage_cases::all(on, &mut Rng::new(seed))?;
    pairs::reasons(on)?;
    for case in 0..count {
        random(on, &mut rng, case)?;
    }
    Ok(())
}

/// Every call on a file, in the plainest way.
pub fn calls(on: &mut Comparer, file: &[u8]) -> Outcome {
    on.read(file)?;
    other_calls(on, file)
}

/// The same of a file that was whole, and was then cut short or had one byte altered.
fn damaged_calls(on: &mut Comparer, file: &[u8]) -> Outcome {
    on.read_damaged(file)?;
    other_calls(on, file)
}

fn other_calls(on: &mut Comparer, file: &[u8]) -> Outcome {
    on.tasks(file)?;
    on.judge(file, &[], Reaches::all(TASKS))?;
    on.judge(file, &[], Reaches::all(0))?;
    on.list(file, 4096)?;
    on.salvage(file, LONGEST)?;
    view(on, file, 1)
}

/// What is said of a task's record, and where it is.
pub fn view(on: &mut Comparer, file: &[u8], number: u8) -> Outcome {
    on.view(file, number)?;
    on.record(file, number)?;
    Ok(())
}

/// Files of one byte, from none to past the longest, whose header asks for their length or not.
fn lengths(on: &mut Comparer) -> Outcome {
    for length in (0..=LONGEST + 60).chain(LONGEST_BY_HEADER - 2..=LONGEST_BY_HEADER + 2).chain([10_000, 65_000]) {
        for byte in [0, 1, 255] {
            on.read(&vec![byte; length])?;
        }
    }
    for (cores, tasks) in [(0, 0), (0, 1), (1, 0), (255, 0), (0, 255), (255, 255), (9, 1), (1, 33)] {
        for partitions in [0, 1, 16, 17] {
            let mut file = vec![0; file_length(cores, tasks)];
            file[..3].copy_from_slice(&[cores as u8, partitions, tasks as u8]);
            file::seal(&mut file);
            calls(on, &file)?;
        }
    }
    Ok(())
}

/// A table with these counts that is right in all else.
pub fn plain(cores: usize, partitions: u8, tasks: usize) -> Draft {
    let task = |k: usize| Task {
        core: (k % cores.clamp(1, 255) + 1) as u8,
        c: 1_000_000,
        t: 10_000_000_000,
        d: 9_000_000_000,
        h: 10,
    };
    Draft { partitions, fourth: 0, timing: DDR3_1333, sets: vec![1; cores], tasks: (0..tasks).map(task).collect() }
}

/// Each count at its limits and one outside.
fn counts(on: &mut Comparer) -> Outcome {
    for cores in [0, 1, CORES, CORES + 1, 255] {
        for tasks in [0, 1, TASKS, TASKS + 1, 255] {
            for partitions in [0, 1, PARTITIONS as u8, PARTITIONS as u8 + 1, 255] {
                calls(on, &plain(cores, partitions, tasks).file())?;
            }
        }
    }
    Ok(())
}

/// The row of all lowest figures and the row of all highest ones. Both pass.
fn extreme_rows() -> [[u16; FIGURES]; 2] {
    [RANGES.map(|(lowest, _)| lowest), RANGES.map(|(_, highest)| highest)]
}

/// Each figure at its limits, one outside and far outside, alone and with another.
fn figure_limits(on: &mut Comparer) -> Outcome {
    let [lowest, highest] = extreme_rows();
    for row in [lowest, highest, DDR3_1333] {
        for (at, (low, high)) in RANGES.into_iter().enumerate() {
            let mut values =
                vec![low, low.wrapping_sub(1), high, high.wrapping_add(1), 0, u16::MAX, u16::MAX - 1, 256, 384];
            if at == BL {
                values.extend(0..=33);
            }
            for value in values {
                let mut draft = Draft { timing: row, ..plain(3, 3, 4) };
                draft.timing[at] = value;
                calls(on, &draft.file())?;
                draft.timing[(at + 4) % FIGURES] = u16::MAX - 3;
                on.read(&draft.file())?;
            }
        }
    }
    Ok(())
}

/// Each relation just kept and just broken, alone, and every set of them broken together.
fn relations(on: &mut Comparer) -> Outcome {
    let edges = [(TWR, 5, 4), (CL, 16, 17), (TRTP, 14, 15), (TRAS, 29, 30), (NCOLS, 1032, 1028)];
    for (place, (at, kept, broken)) in (1..).zip(edges) {
        for (value, code) in [(kept, 0), (broken, 7 + 256 * place)] {
            let mut draft = plain(2, 2, 3);
            draft.timing[at] = value;
            expect(on, &draft.file(), code)?;
        }
    }
    let broken = [(TWR, 4), (CL, 17), (TRTP, 127), (TRAS, 127), (NCOLS, 1025)];
    for chosen in 0..1 << broken.len() {
        let mut draft = plain(2, 2, 3);
        for (bit, (at, value)) in broken.into_iter().enumerate() {
            if chosen >> bit & 1 == 1 {
                draft.timing[at] = value;
            }
        }
        calls(on, &draft.file())?;
    }
    Ok(())
}

/// Timings in which each of the figures that a delay is the largest of is the largest in turn. Two cores are apart and have
/// requests, so that the bound shows the delay.
fn largest_of(on: &mut Comparer) -> Outcome {
    let mut draft = plain(2, 2, 2);
    draft.sets = vec![1, 2];
    draft.timing[TRAS] = 1;
    draft.timing[TRTP] = 1;
    for bl in [4, 8, 16] {
        for (wl, cl) in (1..=6).flat_map(|wl| (1..=20).map(move |cl| (wl, cl))) {
            for (twtr, trtrs) in [(1, 0), (1, 1), (1, 2), (1, 9), (5, 0), (5, 4), (10, 1)] {
                draft.timing[BL] = bl;
                draft.timing[CL..=WL].copy_from_slice(&[cl, wl]);
                draft.timing[TWTR] = twtr;
                draft.timing[TRTRS] = trtrs;
                on.judge(&draft.file(), &[], Reaches::all(TASKS))?;
            }
        }
    }
    for (trrd, tfaw) in (1..=8).flat_map(|trrd| (1..=40).map(move |tfaw| (trrd, tfaw))) {
        draft.timing[TRRD..=TFAW].copy_from_slice(&[trrd, tfaw]);
        on.judge(&draft.file(), &[], Reaches::all(TASKS))?;
    }
    Ok(())
}

/// Both answer this refusal. The own reading is held to it too, so that a case is what it is meant to be.
pub fn expect(on: &mut Comparer, file: &[u8], code: u16) -> Outcome {
    let answered = on.read(file)?;
    assert_eq!(answered, code, "the case isn't what it is meant to be");
    calls(on, file)
}

/// Sets of either kind of table.
fn set_limits(on: &mut Comparer) -> Outcome {
    for partitions in 1..=PARTITIONS as u8 {
        let sound = plain(CORES, partitions, 2);
        set_limits_of(on, &sound)?;
        set_limits_of(on, &sound.on_bus(37_500))?;
    }
    Ok(())
}

/// Empty sets, all partitions, one above the count, in each core's place.
fn set_limits_of(on: &mut Comparer, sound: &Draft) -> Outcome {
    let all = u16::MAX >> (16 - sound.partitions);
    for core in [0, 3, CORES - 1] {
        for set in [0, 1, all, all.wrapping_add(1), 1 << (sound.partitions - 1), 0x8000, u16::MAX, all ^ u16::MAX] {
            let mut draft = sound.clone();
            draft.sets[core] = set;
            calls(on, &draft.file())?;
            draft.sets[(core + 2) % CORES] = 0;
            on.read(&draft.file())?;
        }
    }
    Ok(())
}

/// Each figure of a task at its limits and outside, in the first, a middle and the last place.
fn task_limits(on: &mut Comparer) -> Outcome {
    for (cores, tasks) in [(1, 1), (3, 5), (CORES, TASKS)] {
        for place in [0, tasks / 2, tasks - 1] {
            for faulty in edge_tasks(cores as u8) {
                let mut draft = plain(cores, 1, tasks);
                draft.tasks[place] = faulty;
                calls(on, &draft.file())?;
                draft.tasks[(place + 1) % tasks].h = 1_000_001;
                on.read(&draft.file())?;
            }
        }
    }
    Ok(())
}

fn edge_tasks(cores: u8) -> Vec<Task> {
    let sound = Task { core: 1, c: 5, t: T_LOWEST, d: T_LOWEST, h: 1 };
    let mut tasks = Vec::new();
    tasks.extend([0, 1, cores, cores + 1, 9, 128, 255].map(|core| Task { core, ..sound }));
    tasks.extend([0, 1, 1_000_000, 1_000_001, 1 << 24, u32::MAX].map(|h| Task { h, ..sound }));
    let times =
        [0, 1, 5, T_LOWEST - 1, T_LOWEST, T_LOWEST + 1, T_HIGHEST - 1, T_HIGHEST, T_HIGHEST + 1, 1 << 63, u64::MAX];
    for t in times {
        for d in [0, 1, t.wrapping_sub(1), t, t.wrapping_add(1), 1 << 63, u64::MAX] {
            for c in [0, 1, d.wrapping_sub(1), d, d.wrapping_add(1), u64::MAX] {
                tasks.push(Task { c, t, d, ..sound });
            }
        }
    }
    tasks
}

/// Each byte of the trailer altered, and each of its numbers one off.
fn trailers(on: &mut Comparer) -> Outcome {
    for draft in [plain(1, 1, 1), plain(2, 2, 3), plain(CORES, 16, TASKS)] {
        let file = draft.file();
        let trailer = file.len() - TRAILER;
        for at in trailer..file.len() {
            for altered in [file[at] ^ 1, file[at] ^ 0x80, file[at].wrapping_add(1), file[at].wrapping_sub(1)] {
                let mut file = file.clone();
                file[at] = altered;
                calls(on, &file)?;
            }
        }
        for (at, step) in [(0, 1), (0, u32::MAX), (4, 1), (4, u32::MAX), (8, 1), (8, u32::MAX)] {
            let mut file = file.clone();
            let number = &mut file[trailer + at..trailer + at + 4];
            let stepped = u32::from_le_bytes(file::part(number, 0)).wrapping_add(step);
            number.copy_from_slice(&stepped.to_le_bytes());
            calls(on, &file)?;
        }
        let mut swapped = file.clone();
        swapped[trailer + 4..].rotate_left(4);
        calls(on, &swapped)?;
    }
    Ok(())
}

/// Sums around what 4 bytes hold. The trailer has the sum cut to 4 bytes.
fn sums(on: &mut Comparer) -> Outcome {
    let mut full = vec![0xFF; LONGEST_BY_HEADER];
    calls(on, &full)?;
    file::seal(&mut full);
    expect(on, &full, 4)?;
    let fits = u64::from(u32::MAX);
    for (running, code) in [(fits - 1, 5), (fits, 5), (fits + 1, 4), (fits + 2, 4), (fits + 256, 4), (8_000_000_000, 4)]
    {
        expect(on, &file_with_running_sum(running), code)?;
    }
    Ok(())
}

/// The longest file that a header can ask for, with this sum of running sums.
fn file_with_running_sum(running: u64) -> Vec<u8> {
    let mut file = vec![0; LONGEST_BY_HEADER];
    file[0] = 255;
    file[2] = 255;
    let body = LONGEST_BY_HEADER - TRAILER;
    let (_, header) = file::sums(&file[..body]);
    let mut left = running - header;
    for (at, byte) in file[..body].iter_mut().enumerate().skip(4) {
        let weight = (body - at) as u64;
        *byte = (left / weight).min(255) as u8;
        left -= weight * u64::from(*byte);
    }
    assert_eq!(file::sums(&file[..body]).1, running, "the case isn't what it is meant to be");
    file::seal(&mut file);
    file
}

/// A millisecond, in ps.
const MS: u64 = 1_000_000_000;

/// A task with its deadline at the end of its period.
fn task(core: u8, c: u64, t: u64, h: u32) -> Task {
    Task { core, c, t, d: t, h }
}

/// The listed table (RULES 11.4).
pub fn listed() -> Draft {
    let mut listed = plain(2, 2, 0);
    listed.sets = vec![1, 2];
    listed.tasks = vec![task(1, MS, 10 * MS, 1000), task(2, 2 * MS, 20 * MS, 100), task(1, 9 * MS, 20 * MS, 0)];
    listed
}

/// The listed table with its first task raised (RULES 11.6).
pub fn raised() -> Draft {
    let mut raised = listed();
    raised.tasks[0].c = 1_100_000_000;
    raised
}

/// The tables of RULES 11.4 to 11.7, whole and damaged at every byte.
fn examples(on: &mut Comparer) -> Outcome {
    let (listed, raised) = (listed(), raised());
    let mut tight = listed.clone();
    tight.tasks[2].d = 11_007_499_999;
    let mut two_solutions = plain(1, 1, 0);
    two_solutions.tasks = vec![task(1, 6 * MS, 10 * MS, 0), task(1, 3 * MS, 20 * MS, 0)];
    for draft in [&listed, &tight, &raised, &two_solutions] {
        whole_and_damaged(on, draft)?;
    }
    for (older, newer) in [(&listed, &raised), (&raised, &listed), (&listed, &tight), (&listed, &two_solutions)] {
        pairs::calls(on, &older.file(), &newer.file())?;
    }
    for start in [0, 1, 9 * MS, 11_007_499_999, 11_007_500_000, 11_007_500_001, 20 * MS, 20 * MS + 1, u64::MAX] {
        on.judge(&listed.file(), &[0, 0, start], Reaches::all(TASKS))?;
        on.judge(&raised.file(), &[0, 0, start], Reaches::all(TASKS))?;
        for places in 0..=4 {
            on.judge(&listed.file(), &[0, 0, start], Reaches { bounds: places, ..Reaches::all(3) })?;
            on.judge(&listed.file(), &[0, 0, start], Reaches { rounds: places, ..Reaches::all(3) })?;
            on.judge(&listed.file(), &[0, 0, start], Reaches { by: places, ..Reaches::all(3) })?;
        }
    }
    for start in [0, 9 * MS, 9 * MS + 1, 12 * MS, 15 * MS, 15 * MS + 1, 20 * MS, 20 * MS + 1] {
        on.judge(&two_solutions.file(), &[0, start], Reaches::all(TASKS))?;
    }
    Ok(())
}

/// A table as it is, and cut at every length and altered at every byte.
pub fn whole_and_damaged(on: &mut Comparer, draft: &Draft) -> Outcome {
    let file = draft.file();
    calls(on, &file)?;
    records(on, &file)?;
    cuts(on, &file)?;
    for at in 0..file.len() {
        for value in [0, 1, file[at] ^ 1, file[at].wrapping_add(1), 255] {
            altered(on, &file, at, value)?;
        }
    }
    Ok(())
}

/// Tables whose request total goes past 64 bits, and just past a multiple of 2^64.
fn wide_totals(on: &mut Comparer, rng: &mut Rng) -> Outcome {
    for _ in 0..50 {
        calls(on, &gen::wide(rng).file())?;
    }
    Ok(())
}

/// One random table, whole and in some ways damaged.
fn random(on: &mut Comparer, rng: &mut Rng, case: u64) -> Outcome {
    let heavy = |rng: &mut Rng| gen::measured(rng, 4 + case as usize % 29, 2 + case as usize % 7, true);
    let draft = match case % 16 {
        7 => heavy(rng),
        15 => heavy(rng).on_bus(37_500),
        _ => gen::draft(rng),
    };
    let file = draft.file();
    whole(on, rng, &file)?;
    for _ in 0..8 {
        let at = rng.index(file.len());
        altered(on, &file, at, rng.word() as u8)?;
    }
    for _ in 0..4 {
        calls(on, &faulty(rng, &draft).file())?;
    }
    let faulty = faulty(rng, &draft);
    pairs::random(on, rng, &draft, &faulty)?;
    salvage_cases::random(on, &mut rng.clone(), &draft)?;
    match case % 16 {
        0 => cuts(on, &file),
        1 => records(on, &file),
        2 => (0..file.len()).try_for_each(|at| altered(on, &file, at, rng.word() as u8)),
        _ => Ok(()),
    }
}

/// An accepted file: every call, from starts of every kind, into outputs of every length.
fn whole(on: &mut Comparer, rng: &mut Rng, file: &[u8]) -> Outcome {
    expect(on, file, 0)?;
    let table = file::read(file).expect("it was just accepted");
    let fresh = fresh(&table);
    for _ in 0..6 {
        let starts = gen::starts(rng, &table, &fresh);
        on.judge(file, &starts, reaches(rng, table.tasks().len()))?;
    }
    let length = listing(file).len();
    for room in [0, 1, length - 1, length, length + 1, length + rng.index(99)] {
        on.list(file, room)?;
    }
    for number in [0, table.tasks, table.tasks + 1, rng.word() as u8] {
        view(on, file, number)?;
    }
    Ok(())
}

fn fresh(table: &Table) -> [Answer; TASKS] {
    Judge::of_accepted(table).all(&[]).expect("a fresh judgement is never refused")
}

/// Outputs that reach as far as the tasks or further; now and then one of them is too short.
fn reaches(rng: &mut Rng, tasks: usize) -> Reaches {
    let mut reach = || rng.pick(&[tasks, tasks, tasks + 1, TASKS, TASKS + 1, 40]);
    let mut reaches = Reaches { bounds: reach(), rounds: reach(), by: reach() };
    if rng.once_in(4) {
        let short = [&mut reaches.bounds, &mut reaches.rounds, &mut reaches.by].into_iter().nth(rng.index(3));
        *short.expect("there are three") = rng.pick(&[0, 1, tasks - 1]);
    }
    reaches
}

/// A whole file cut at every length: as it is, and with a new trailer. Then with bytes after it.
fn cuts(on: &mut Comparer, file: &[u8]) -> Outcome {
    for length in 0..file.len() {
        let mut cut = file[..length].to_vec();
        damaged_calls(on, &cut)?;
        if length >= SHORTEST {
            file::seal(&mut cut);
            calls(on, &cut)?;
        }
    }
    let mut longer = file.to_vec();
    for _ in 0..40 {
        longer.push(0);
        calls(on, &longer)?;
    }
    Ok(())
}

/// The records of every task number.
fn records(on: &mut Comparer, file: &[u8]) -> Outcome {
    (0..=u8::MAX).try_for_each(|number| view(on, file, number))
}

/// A whole file with one byte altered: as it is, and with a trailer that fits it.
fn altered(on: &mut Comparer, file: &[u8], at: usize, value: u8) -> Outcome {
    let mut file = file.to_vec();
    let was = std::mem::replace(&mut file[at], value);
    if was == value {
        calls(on, &file)?;
    } else {
        damaged_calls(on, &file)?;
    }
    file::seal(&mut file);
    calls(on, &file)
}

/// The table with one to four faults, to try the order of refusals and the first place. That it is salvaged, as some are, is none.
fn faulty(rng: &mut Rng, sound: &Draft) -> Draft {
    let mut draft = sound.clone();
    for _ in 0..rng.between(1, 4) {
        break_one(rng, &mut draft);
    }
    draft
}

fn break_one(rng: &mut Rng, draft: &mut Draft) {
    let core = rng.index(draft.sets.len());
    let task = rng.index(draft.tasks.len());
    let cores = draft.sets.len() as u8;
    let task = &mut draft.tasks[task];
    match rng.index(16) {
        0 => draft.fourth = rng.word() as u8,
        1 => draft.partitions = rng.pick(&[0, 1, 17, 255]),
        2 => draft.timing[rng.index(FIGURES)] = rng.word() as u16,
        3 => draft.timing[rng.index(FIGURES)] = rng.pick(&[0, 1, 127, 128]),
        4 => draft.sets[core] = 0,
        5 => draft.sets[core] = rng.word() as u16,
        6 => task.core = 0,
        7 => task.core = cores + 1,
        8 => task.t = rng.pick(&[T_LOWEST - 1, T_HIGHEST + 1, 0, u64::MAX]),
        9 => task.d = rng.pick(&[0, task.t.wrapping_add(1), u64::MAX]),
        10 => task.c = rng.pick(&[0, task.d.wrapping_add(1), u64::MAX]),
        11 => task.h = rng.pick(&[1_000_001, u32::MAX]),
        12 => draft.sets.resize(CORES + 1, 1),
        13 => draft.fourth ^= 1,
        14 => draft.fourth |= 1 << rng.between(1, 7),
        _ => {
            let again = *task;
            draft.tasks.resize(TASKS + 1, again);
        }
    }
}
