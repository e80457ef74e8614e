//! A small seeded generator of numbers, and of tables, accepted and faulty.

use crate::bus;
use crate::delay::Delays;
use crate::dram::{Timing, BL, DDR3_1333, RANGES};
use crate::file::{file_length, seal, write_record, RECORD, TRAILER};
use crate::judge::{Answer, Verdict};
use crate::table::{Kind, Table, Task, FIGURES, H_HIGHEST, SALVAGED_BIT, T_HIGHEST, T_LOWEST};

/// The place of Ncols among the figures, from 0.
const NCOLS: usize = 13;

/// splitmix64.
#[derive(Clone, Debug)]
pub struct Rng(u64);

impl Rng {
    pub fn new(seed: u64) -> Rng {
        Rng(seed)
    }

    pub fn word(&mut self) -> u64 {
        self.0 = self.0.wrapping_add(0x9E37_79B9_7F4A_7C15);
        let z = (self.0 ^ (self.0 >> 30)).wrapping_mul(0xBF58_476D_1CE4_E5B9);
        let z = (z ^ (z >> 27)).wrapping_mul(0x94D0_49BB_1331_11EB);
        z ^ (z >> 31)
    }

    /// From `lowest` to `highest`, both of which can come.
    pub fn between(&mut self, lowest: u64, highest: u64) -> u64 {
        lowest + self.word() % (highest - lowest + 1)
    }

    pub fn index(&mut self, length: usize) -> usize {
        (self.word() % length as u64) as usize
    }

    /// True once in `n` times.
    pub fn once_in(&mut self, n: u64) -> bool {
        self.between(1, n) == 1
    }

    pub fn pick<T: Copy>(&mut self, from: &[T]) -> T {
        from[self.index(from.len())]
    }

    /// From `lowest` to `highest`, each order of magnitude as likely as the next.
    pub fn any_size(&mut self, lowest: u64, highest: u64) -> u64 {
        let bits = self.between(lowest.max(1).ilog2().into(), highest.max(1).ilog2().into());
        (self.word() >> (63 - bits)).clamp(lowest, highest)
    }
}

/// What a file says, right or wrong. The counts of cores and tasks are those of the sets and the tasks.
#[derive(Clone, Debug)]
pub struct Draft {
    pub partitions: u8,
    pub fourth: u8,
    pub timing: [u16; FIGURES],
    pub sets: Vec<u16>,
    pub tasks: Vec<Task>,
}

impl Draft {
    pub fn kind(&self) -> Kind {
        Kind::of(self.fourth)
    }

    /// The same with these timing figures of a table of that kind.
    pub fn with_timing(&self, kind: Kind, timing: [u16; FIGURES]) -> Draft {
        Draft { fourth: kind.fourth(), timing, ..self.clone() }
    }

    /// The same on a bus whose s is this.
    pub fn on_bus(&self, turn: u16) -> Draft {
        self.with_timing(Kind::Bus, bus::figures(turn))
    }

    /// The same, salvaged.
    pub fn salvaged(&self) -> Draft {
        Draft { fourth: self.fourth | SALVAGED_BIT, ..self.clone() }
    }

    /// The file, with its trailer.
    pub fn file(&self) -> Vec<u8> {
        let mut file = Vec::with_capacity(file_length(self.sets.len(), self.tasks.len()));
        file.extend([self.sets.len() as u8, self.partitions, self.tasks.len() as u8, self.fourth]);
        file.extend(self.timing.iter().chain(&self.sets).flat_map(|figure| figure.to_le_bytes()));
        for task in &self.tasks {
            let mut record = [0; RECORD];
            write_record(task, &mut record);
            file.extend(record);
        }
        file.extend([0; TRAILER]);
        seal(&mut file);
        file
    }
}

/// How the tasks of a generated table are.
#[derive(Clone, Copy, Debug)]
enum Style {
    /// Any figures in range.
    Any,
    /// Shorter periods first, and a load that often just about fits where a request takes so long.
    Busy { per_request: u64 },
    /// As busy, but that one core has half the tasks and nearly all requests: there job decides, and on the others request.
    Uneven { per_request: u64, heavy: u8 },
    /// Figures at their limits.
    Limits,
}

/// An accepted table; one in three is a bus table.
pub fn draft(rng: &mut Rng) -> Draft {
    let kind = rng.pick(&[Kind::Dram, Kind::Dram, Kind::Bus]);
    draft_of(rng, kind)
}

/// An accepted table of this kind.
pub fn draft_of(rng: &mut Rng, kind: Kind) -> Draft {
    let cores = match rng.index(4) {
        0 => rng.pick(&[1, 2, 8]),
        _ => rng.between(1, 8),
    };
    let tasks = match rng.index(4) {
        0 => rng.pick(&[1, 2, 32]),
        _ => rng.between(1, 32),
    };
    let partitions = rng.between(1, 16) as u8;
    let busy = Style::Busy { per_request: 10u64.pow(rng.between(6, 10) as u32) };
    let uneven = Style::Uneven { per_request: 10u64.pow(rng.between(5, 7) as u32), heavy: rng.between(1, cores) as u8 };
    let style = rng.pick(&[Style::Any, busy, busy, uneven, Style::Limits]);
    Draft {
        partitions,
        fourth: kind.fourth(),
        timing: timing(rng, kind),
        sets: sets(rng, cores as usize, partitions),
        tasks: tasks_of(rng, style, cores, tasks),
    }
}

/// Accepted timing figures of a table of this kind.
pub fn timing(rng: &mut Rng, kind: Kind) -> [u16; FIGURES] {
    match kind {
        Kind::Dram => dram_timing(rng),
        Kind::Bus => bus::figures(turn(rng)),
    }
}

/// The s of a bus table: at its limits, a typical one, or any.
fn turn(rng: &mut Rng) -> u16 {
    match rng.index(6) {
        0 => 1,
        1 => u16::MAX,
        2 | 3 => rng.pick(&[12_500, 37_500, 50_000]),
        _ => rng.any_size(1, u16::MAX.into()) as u16,
    }
}

/// The DDR3-1333 row, a row near it or any row.
fn dram_timing(rng: &mut Rng) -> [u16; FIGURES] {
    let near = rng.once_in(2);
    loop {
        let mut row = DDR3_1333;
        for (at, figure) in row.iter_mut().enumerate() {
            if !near || rng.once_in(8) {
                *figure = in_range(rng, at);
            }
        }
        row[BL] = rng.pick(&[4, 8, 8, 16]);
        row[NCOLS] -= row[NCOLS] % row[BL];
        if row[NCOLS] >= 64 && Timing::new(&row).relations().iter().all(|&holds| holds) {
            return row;
        }
    }
}

/// A figure in its range, now and then at a limit.
fn in_range(rng: &mut Rng, at: usize) -> u16 {
    let (lowest, highest) = RANGES[at];
    match rng.index(6) {
        0 => lowest,
        1 => highest,
        2 => rng.between(lowest.into(), u64::from(highest).min(u64::from(lowest) + 20)) as u16,
        _ => rng.between(lowest.into(), highest.into()) as u16,
    }
}

/// Sets that pass: apart as far as the partitions reach, all sharing, or any.
pub fn sets(rng: &mut Rng, cores: usize, partitions: u8) -> Vec<u16> {
    let all = u16::MAX >> (16 - partitions);
    let style = rng.index(4);
    let shared = rng.between(1, all.into()) as u16;
    (0..cores)
        .map(|core| match style {
            0 => 1 << (core % usize::from(partitions)),
            1 => shared,
            2 => 1 << rng.index(partitions.into()),
            _ => rng.between(1, all.into()) as u16,
        })
        .collect()
}

fn tasks_of(rng: &mut Rng, style: Style, cores: u64, count: u64) -> Vec<Task> {
    let mut tasks: Vec<Task> = (0..count).map(|_| task(rng, style, cores, count)).collect();
    if matches!(style, Style::Busy { .. } | Style::Uneven { .. }) {
        tasks.sort_by_key(|task| task.t);
    }
    tasks
}

fn task(rng: &mut Rng, style: Style, cores: u64, count: u64) -> Task {
    let core = rng.between(1, cores) as u8;
    match style {
        Style::Any => {
            let t = rng.any_size(T_LOWEST, T_HIGHEST);
            let d = if rng.once_in(2) { t } else { rng.any_size(1, t) };
            Task { core, c: rng.any_size(1, d), t, d, h: rng.any_size(0, H_HIGHEST.into()) as u32 }
        }
        Style::Busy { per_request } => {
            let task = busy_task(rng, core, count.div_ceil(cores));
            Task { h: busy_requests(rng, task.t / per_request), ..task }
        }
        Style::Uneven { per_request, heavy } => {
            let core = if rng.once_in(2) { heavy } else { core };
            let task = busy_task(rng, core, count.div_ceil(2));
            let room = task.t / if core == heavy { per_request } else { 100 * per_request };
            Task { h: rng.between(0, room.min(H_HIGHEST.into())) as u32, ..task }
        }
        Style::Limits => {
            let t = rng.pick(&[T_LOWEST, T_HIGHEST]);
            let d = rng.pick(&[1, 2, t / 2, t - 1, t]);
            let c = rng.pick(&[1, d, (d / 10).max(1), (d / 40).max(1)]);
            Task { core, c, t, d, h: rng.pick(&[0, 1, H_HIGHEST - 1, H_HIGHEST]) }
        }
    }
}

/// A task with no requests, beside which `share` of its like about fit on a core.
fn busy_task(rng: &mut Rng, core: u8, share: u64) -> Task {
    let t = rng.any_size(T_LOWEST, T_HIGHEST);
    let d = if rng.once_in(2) { t } else { rng.between(t / 2, t) };
    Task { core, c: rng.between(1, d / share), t, d, h: 0 }
}

/// Mostly as many as there is room for.
fn busy_requests(rng: &mut Rng, room: u64) -> u32 {
    let highest = u64::from(H_HIGHEST);
    let requests = match rng.index(16) {
        0 => rng.between(0, 100),
        1 => rng.any_size(0, highest),
        2 => highest,
        3 | 4 => 0,
        _ => rng.between(0, room),
    };
    requests.min(highest) as u32
}

/// The table with the same cores and tasks on the other kind of board; accepted like it.
pub fn on_the_other_kind(rng: &mut Rng, draft: &Draft) -> Draft {
    let other = match draft.kind() {
        Kind::Dram => Kind::Bus,
        Kind::Bus => Kind::Dram,
    };
    draft.with_timing(other, timing(rng, other))
}

/// The table with execution times and request counts as they were or raised, and periods as they were or shortened; accepted like it.
pub fn worsened(rng: &mut Rng, draft: &Draft) -> Draft {
    let mut worse = draft.clone();
    let one_in = rng.pick(&[1, 2, 8, 64]);
    for task in worse.tasks.iter_mut() {
        if rng.once_in(one_in) {
            let spare = rng.pick(&[0, task.c / 10, task.d - task.c]);
            task.c += rng.between(0, spare.min(task.d - task.c));
        }
        if rng.once_in(one_in) {
            task.h += rng.any_size(0, (H_HIGHEST - task.h).into()) as u32;
        }
        if rng.once_in(one_in) {
            task.t = rng.between(task.d.max(T_LOWEST), task.t);
        }
    }
    worse
}

/// Starts for the tasks of an accepted table whose fresh answers are known: of every kind, too few and too many.
pub fn starts(rng: &mut Rng, table: &Table, fresh: &[Answer]) -> Vec<u64> {
    let safe = rng.once_in(2);
    let kind = rng.index(8);
    let mut starts: Vec<u64> = table
        .tasks()
        .iter()
        .zip(fresh)
        .map(|(task, answer)| {
            let kind = if kind == 7 { rng.index(7) } else { kind };
            start(rng, kind, task, answer)
        })
        .collect();
    if !safe {
        let at = rng.index(starts.len());
        let task = &table.tasks()[at];
        starts[at] = rng.pick(&[task.d, task.d + 1, u64::MAX, task.d / 2, 1 << 63, task.t]);
    }
    match rng.index(4) {
        0 => starts.truncate(rng.index(starts.len() + 1)),
        1 => starts.extend((0..rng.index(12)).map(|_| u64::MAX)),
        _ => {}
    }
    starts
}

/// One start. Those of kinds 0 to 3 are never refused.
fn start(rng: &mut Rng, kind: usize, task: &Task, fresh: &Answer) -> u64 {
    let bound = match fresh.verdict {
        Verdict::Holds { bound, .. } => bound,
        Verdict::Misses => 0,
    };
    match kind {
        0 => 0,
        1 => bound,
        2 => rng.between(0, bound),
        3 => task.c.min(bound),
        4 => bound + 1,
        5 => rng.between(bound, task.d),
        _ => rng.between(0, task.d),
    }
}

/// A table whose last task has a request total just past a multiple of 2^64, and a job delay that is far smaller than that but
/// larger than what is left of it by 64 bits.
///
/// Cores 1 and 2 share a partition and all others are apart, under the slowest timing. The higher tasks of core 1 are released
/// `releases` times each, and the last response stays within that many of their periods.
pub fn wide(rng: &mut Rng) -> Draft {
    let mut draft = Draft {
        partitions: 8,
        fourth: 0,
        timing: RANGES.map(|(_, highest)| highest),
        sets: vec![1, 1, 4, 8, 16, 32, 64, 128],
        tasks: Vec::new(),
    };
    draft.timing[BL] = 4;
    loop {
        draft.timing[0] = rng.between(4000, 5000) as u16;
        let sets = draft.sets.as_slice().try_into().expect("there are eight");
        let table = Table { cores: 8, timing: draft.timing, sets, ..Table::default() };
        let per_request = Delays::new(&table).request(0);
        let multiple = u128::from(rng.between(1, 60)) << 64;
        let requests = multiple.div_ceil(per_request);
        let left = requests * per_request - multiple;
        if left < u128::from(T_LOWEST / 2) {
            draft.tasks = wide_tasks(rng, requests as u64, &Timing::new(&draft.timing));
            return draft;
        }
    }
}

fn wide_tasks(rng: &mut Rng, requests: u64, timing: &Timing) -> Vec<Task> {
    let higher = 30;
    let releases = rng.between(9_900, 10_000);
    let each = requests / releases / higher;
    let spare = (requests / releases % higher) as usize;
    let mut tasks: Vec<Task> =
        (0..higher).map(|_| Task { core: 1, c: 1, t: T_LOWEST, d: T_LOWEST, h: each as u32 }).collect();
    for task in &mut tasks[..spare] {
        task.h += 1;
    }
    let per_job_request = (timing.conf() * timing.tck) as u64;
    let job = T_LOWEST * 3 / 4;
    let other = Task { core: 2, c: 1, t: T_HIGHEST, d: T_HIGHEST, h: (job / 2 / per_job_request) as u32 };
    let c = (releases - 1) * T_LOWEST + 1;
    let last = Task { core: 1, c, t: T_HIGHEST, d: T_HIGHEST, h: (requests % releases) as u32 };
    tasks.extend([other, last]);
    tasks
}

/// A table of `tasks` tasks on `cores` cores, all apart, for measuring: a light one, or one that takes many rounds.
pub fn measured(rng: &mut Rng, tasks: usize, cores: usize, heavy: bool) -> Draft {
    Draft {
        partitions: cores as u8,
        fourth: 0,
        timing: DDR3_1333,
        sets: (0..cores).map(|core| 1 << core).collect(),
        tasks: (0..tasks)
            .map(|k| if heavy { heavy_task(rng, k, tasks, cores) } else { light_task(rng, k, tasks, cores) })
            .collect(),
    }
}

/// A tenth to three tenths of each core's time, and few requests.
fn light_task(rng: &mut Rng, k: usize, tasks: usize, cores: usize) -> Task {
    let t = rng.between(1_000_000_000, 100_000_000_000);
    let share = tasks.div_ceil(cores) as u64;
    let c = t * rng.between(10, 30) / 100 / share;
    Task { core: (k % cores + 1) as u8, c, t, d: t, h: rng.between(0, 500) as u32 }
}

/// The first half have the shortest periods and take most of the time: of the memory, and of their core where others run on it.
/// The others have long periods, and a response that creeps up to its bound by one short period after another.
fn heavy_task(rng: &mut Rng, k: usize, tasks: usize, cores: usize) -> Task {
    let core = (k % cores + 1) as u8;
    let short = tasks / 2;
    let used = short.min(cores) as u64;
    let share = short.div_ceil(cores) as u64;
    if k < short {
        let t = rng.between(T_LOWEST, 2 * T_LOWEST);
        let load = if tasks <= cores { rng.between(10, 100) } else { rng.between(300, 970) };
        let c = t * load / 1000 / share;
        let h = t * (970 - load) / 1000 / (37_500 * used * share);
        Task { core, c: c.max(1), t, d: t, h: h as u32 }
    } else {
        let c = T_HIGHEST / 1000 * rng.between(1, 30);
        Task { core, c, t: T_HIGHEST, d: T_HIGHEST, h: rng.pick(&[0, 10_000, H_HIGHEST]) }
    }
}

#[cfg(test)]
mod tests {
    use super::*;
    use crate::file;
    use crate::judge::{By, Judge};
    use crate::listing::listing;

    /// The whole numbers hold by job; 64 bits would hold by request.
    #[test]
    fn wide_tables_hold_by_job() {
        let mut rng = Rng::new(1);
        for _ in 0..20 {
            let table = file::read(&wide(&mut rng).file()).expect("a wide table is accepted");
            let judge = Judge::of_accepted(&table);
            let answer = judge.one(table.tasks, 0).expect("a fresh judgement is never refused");
            assert!(matches!(answer, Answer { verdict: Verdict::Holds { by: By::Job, .. }, rounds: 2 }), "{answer:?}");
        }
    }

    #[test]
    fn generated_tables_are_accepted() {
        let mut rng = Rng::new(2);
        for _ in 0..2000 {
            assert!(file::read(&draft(&mut rng).file()).is_ok());
            assert!(file::read(&measured(&mut rng, 32, 8, true).file()).is_ok());
            assert!(file::read(&measured(&mut rng, 4, 8, false).file()).is_ok());
        }
    }

    /// A third are bus tables, and of their tasks many hold by each delay and many miss.
    #[test]
    fn both_delays_decide_on_a_bus() {
        let mut rng = Rng::new(4);
        let (mut tables, mut request, mut job, mut misses) = (0, 0, 0, 0);
        for draft in (0..900).map(|_| draft(&mut rng)).filter(|draft| draft.kind() == Kind::Bus) {
            let table = file::read(&draft.file()).expect("a draft is accepted");
            tables += 1;
            for answer in &Judge::of_accepted(&table).all(&[]).expect("it is fresh")[..table.tasks().len()] {
                match answer.verdict {
                    Verdict::Holds { by: By::Request, .. } => request += 1,
                    Verdict::Holds { by: By::Job, .. } => job += 1,
                    Verdict::Misses => misses += 1,
                }
            }
        }
        assert!((250..350).contains(&tables), "{tables}");
        assert!([request, job, misses].iter().all(|&tasks| tasks > 300), "{request}, {job}, {misses}");
    }

    /// RULES 11.10: a turn of 37,500 ps costs what a request of a core apart does under DDR3-1333.
    #[test]
    fn a_bus_is_like_cores_apart() {
        let mut rng = Rng::new(5);
        for (tasks, cores) in (1..=32).flat_map(|tasks| (1..=8).map(move |cores| (tasks, cores))) {
            let heavy = rng.once_in(2);
            let apart = measured(&mut rng, tasks, cores, heavy);
            assert_eq!(listing(&apart.file()), listing(&apart.on_bus(37_500).file()));
        }
    }
}
