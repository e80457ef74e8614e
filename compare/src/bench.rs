//! Measures the linked library beside the own reading: the same files in the same run, turn by turn.

use std::fmt::Write;
use std::hint::black_box;
use std::time::{Duration, Instant};

use compare_model::answers;
use compare_model::file;
use compare_model::gen::{measured, Draft, Rng};
use compare_model::judge::{Answer, Judge, Verdict};
use compare_model::stops::Stops;
use compare_model::table::TASKS;

use crate::ffi::{Lent, Linked};

/// Turns that each side has; the median counts.
const TURNS: usize = 15;
/// About how long a turn takes.
const TURN: Duration = Duration::from_micros(600);
/// Of so many heavy tables the one with the most rounds is taken.
const CANDIDATES: usize = 300;
/// A station pump, and the same after a change (examples/README.md).
const PUMP_OLDER: &[u8] = include_bytes!("../../examples/pump-older.table");
const PUMP_NEWER: &[u8] = include_bytes!("../../examples/pump-newer.table");

/// Nanoseconds a call, of the library and of the own reading.
#[derive(Clone, Copy)]
struct Times {
    library: f64,
    own: f64,
}

impl Times {
    fn less(self, other: Times) -> Times {
        Times { library: self.library - other.library, own: self.own - other.own }
    }

    fn per(self, n: u64) -> Times {
        Times { library: self.library / n as f64, own: self.own / n as f64 }
    }

    /// Both in microseconds, and the library's as a multiple of the own.
    fn cell(self) -> String {
        format!("{:.2} / {:.2} = {:.2}", self.library / 1e3, self.own / 1e3, self.library / self.own)
    }

    /// Both in nanoseconds.
    fn nanoseconds(self) -> String {
        format!("{:.1} / {:.1}", self.library, self.own)
    }
}

/// A table to measure, and the same with figures raised since.
struct Subject {
    tasks: usize,
    cores: usize,
    load: &'static str,
    file: Vec<u8>,
    raised: Vec<u8>,
    starts: Vec<u64>,
    fresh_rounds: u64,
    carried_rounds: u64,
    stops: Stops,
}

/// What was measured of one table.
struct Measured {
    read: Times,
    fresh: Times,
    carried: Times,
    list: Times,
}

/// The tables of figures, in Markdown.
pub fn report(seed: u64) -> String {
    let mut rng = Rng::new(seed);
    let mut ratios = String::from(
        "Library / own reading in Rust, microseconds a call, and the ratio. 'Less read' is 'judge, fresh' less 'read' on both sides.\n\n\
         | tasks | cores | load | read | judge, fresh | judge, carried | listing | fresh, less read | carried, less read |\n\
         |---|---|---|---|---|---|---|---|---|\n",
    );
    let mut growth = String::from(
        "\nHow the time of 'fresh, less read' grows, library / own reading, nanoseconds.\n\n\
         | tasks | cores | load | rounds, fresh | rounds, carried | a round | a round and task |\n\
         |---|---|---|---|---|---|---|\n",
    );
    let mut stops = String::from(
        "\nHow far job is added up in the rounds of 'judge, fresh' (RULES 5.7).\n\n\
         | tasks | cores | load | rounds | stop at the floor | stop at a core | never stop |\n\
         |---|---|---|---|---|---|---|\n",
    );
    for subject in subjects(&mut rng) {
        let measured = measure_all(&subject);
        ratio_row(&mut ratios, &subject, &measured);
        growth_row(&mut growth, &subject, &measured);
        stops_row(&mut stops, &subject);
    }
    ratios + &growth + &stops
}

fn ratio_row(out: &mut String, subject: &Subject, m: &Measured) {
    let Subject { tasks, cores, load, .. } = subject;
    let _ = write!(out, "| {tasks} | {cores} | {load} |");
    for times in [m.read, m.fresh, m.carried, m.list, m.fresh.less(m.read), m.carried.less(m.read)] {
        let _ = write!(out, " {} |", times.cell());
    }
    out.push('\n');
}

fn growth_row(out: &mut String, subject: &Subject, m: &Measured) {
    let Subject { tasks, cores, load, fresh_rounds, carried_rounds, .. } = subject;
    let a_round = m.fresh.less(m.read).per(*fresh_rounds);
    let a_round_and_task = a_round.per(*tasks as u64);
    let _ = writeln!(
        out,
        "| {tasks} | {cores} | {load} | {fresh_rounds} | {carried_rounds} | {} | {} |",
        a_round.nanoseconds(),
        a_round_and_task.nanoseconds()
    );
}

fn stops_row(out: &mut String, subject: &Subject) {
    let Subject { tasks, cores, load, fresh_rounds, stops: Stops { floor, core, never }, .. } = subject;
    let _ = writeln!(out, "| {tasks} | {cores} | {load} | {fresh_rounds} | {floor} | {core} | {never} |");
}

/// Tables of every size, light and heavy, and the station pump.
fn subjects(rng: &mut Rng) -> Vec<Subject> {
    let mut subjects = Vec::new();
    for tasks in [4, 16, 32] {
        for cores in [2, 4, 8] {
            for heavy in [false, true] {
                subjects.push(subject(rng, tasks, cores, heavy));
            }
        }
    }
    subjects.push(prepared("pump", PUMP_OLDER.to_vec(), PUMP_NEWER.to_vec()));
    subjects
}

fn subject(rng: &mut Rng, tasks: usize, cores: usize, heavy: bool) -> Subject {
    let candidates = if heavy { CANDIDATES } else { 1 };
    let draft = (0..candidates)
        .map(|_| measured(rng, tasks, cores, heavy))
        .max_by_key(|draft| rounds(&judged(&draft.file(), &[])))
        .expect("there is a candidate");
    let file = draft.file();
    prepared(if heavy { "heavy" } else { "light" }, file, raise(draft).file())
}

fn prepared(load: &'static str, file: Vec<u8>, raised: Vec<u8>) -> Subject {
    let table = file::read(&file).expect("a measured table is accepted");
    let (tasks, cores) = (usize::from(table.tasks), usize::from(table.cores));
    let fresh = judged(&file, &[]);
    let starts: Vec<u64> = fresh[..tasks].iter().map(bound).collect();
    Subject {
        tasks,
        cores,
        load,
        fresh_rounds: rounds(&fresh),
        carried_rounds: rounds(&judged(&raised, &starts)),
        stops: Judge::of_accepted(&table).stops(cores),
        file,
        raised,
        starts,
    }
}

/// The first task runs a little longer, the last one makes a request more.
fn raise(mut draft: Draft) -> Draft {
    let first = &mut draft.tasks[0];
    first.c = (first.c + first.c / 200).min(first.d);
    if let Some(last) = draft.tasks.last_mut() {
        last.h = (last.h + 1).min(1_000_000);
    }
    draft
}

fn judged(bytes: &[u8], starts: &[u64]) -> [Answer; TASKS] {
    let table = file::read(bytes).expect("a measured table is accepted");
    Judge::of_accepted(&table).all(starts).expect("older bounds are never refused")
}

fn rounds(answers: &[Answer]) -> u64 {
    answers.iter().map(|answer| answer.rounds).sum()
}

fn bound(answer: &Answer) -> u64 {
    match answer.verdict {
        Verdict::Holds { bound, .. } => bound,
        Verdict::Misses => 0,
    }
}

fn measure_all(subject: &Subject) -> Measured {
    let file = subject.file.as_slice();
    Measured {
        read: side_by_side(|| library_read(black_box(file)), || answers::read(black_box(file))),
        fresh: judgement(file, &[]),
        carried: judgement(&subject.raised, &subject.starts),
        list: side_by_side(|| library_list(black_box(file)), || own_list(black_box(file))),
    }
}

fn judgement(file: &[u8], starts: &[u64]) -> Times {
    side_by_side(|| library_judge(black_box(file), black_box(starts)), || own_judge(black_box(file), black_box(starts)))
}

fn library_read(file: &[u8]) -> u16 {
    Linked.read(file)
}

fn library_judge(file: &[u8], starts: &[u64]) -> (u16, [u64; TASKS], [u64; TASKS], [u8; TASKS]) {
    let (mut bounds, mut rounds, mut by) = ([0; TASKS], [0; TASKS], [0; TASKS]);
    let code = Linked.judge(
        file,
        starts,
        Lent::new(&mut bounds, TASKS),
        Lent::new(&mut rounds, TASKS),
        Lent::new(&mut by, TASKS),
    );
    (code, bounds, rounds, by)
}

fn own_judge(file: &[u8], starts: &[u64]) -> (u16, [u64; TASKS], [u64; TASKS], [u8; TASKS]) {
    let (mut bounds, mut rounds, mut by) = ([0; TASKS], [0; TASKS], [0; TASKS]);
    let code = answers::judge(file, starts, &mut bounds, &mut rounds, &mut by);
    (code, bounds, rounds, by)
}

fn library_list(file: &[u8]) -> (usize, [u8; 2048]) {
    let mut out = [0; 2048];
    let room = out.len();
    (Linked.list(file, Lent::new(&mut out, room)), out)
}

fn own_list(file: &[u8]) -> (usize, [u8; 2048]) {
    let mut out = [0; 2048];
    (answers::list(file, &mut out), out)
}

/// The medians of both sides, which take turns. Both must answer the same.
fn side_by_side<T: PartialEq>(library: impl Fn() -> T, own: impl Fn() -> T) -> Times {
    assert!(library() == own(), "the two differ: run the comparison");
    let (library_calls, own_calls) = (calls_a_turn(&library), calls_a_turn(&own));
    let (mut library_times, mut own_times) = ([0.0; TURNS], [0.0; TURNS]);
    for turn in 0..TURNS {
        library_times[turn] = turn_of(&library, library_calls);
        own_times[turn] = turn_of(&own, own_calls);
    }
    Times { library: median(library_times), own: median(own_times) }
}

/// How many calls fill a turn, after as many to warm up.
fn calls_a_turn<T>(call: &impl Fn() -> T) -> u32 {
    let start = Instant::now();
    let mut calls = 0;
    while start.elapsed() < TURN {
        black_box(call());
        calls += 1;
    }
    calls
}

/// Nanoseconds a call.
fn turn_of<T>(call: &impl Fn() -> T, calls: u32) -> f64 {
    let start = Instant::now();
    for _ in 0..calls {
        black_box(call());
    }
    start.elapsed().as_nanos() as f64 / f64::from(calls)
}

fn median(mut times: [f64; TURNS]) -> f64 {
    times.sort_by(f64::total_cmp);
    times[TURNS / 2]
}
