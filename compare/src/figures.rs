//! The figures of RULES 11, and some of our own, as tests of the own reading.

use crate::answers;
use crate::carry;
use crate::delay::Delays;
use crate::dram::{Timing, DDR3_1333, NCAP};
use crate::file::{self, LONGEST, LONGEST_BY_HEADER, RECORD, SETS_AT, SHORTEST};
use crate::judge::{Answer, By, Judge, Verdict};
use crate::listing::listing;
use crate::refusal::Refusal;
use crate::salvage::{salvage, Salvaged};
use crate::table::{Table, Task, CORES, FIGURES};

fn table(partitions: u8, sets: &[u16], tasks: &[Task]) -> Table {
    let mut table =
        Table { cores: sets.len() as u8, partitions, tasks: tasks.len() as u8, timing: DDR3_1333, ..Table::default() };
    table.sets[..sets.len()].copy_from_slice(sets);
    table.task[..tasks.len()].copy_from_slice(tasks);
    table
}

fn task(core: u8, c: u64, t: u64, h: u32) -> Task {
    Task { core, c, t, d: t, h }
}

fn bytes(table: &Table) -> Vec<u8> {
    let mut out = [0; LONGEST];
    let length = file::write(table, &mut out).expect("the table is accepted");
    out[..length].to_vec()
}

/// The listed table (RULES 11.4).
fn listed() -> Table {
    let tasks = [
        task(1, 1_000_000_000, 10_000_000_000, 1000),
        task(2, 2_000_000_000, 20_000_000_000, 100),
        task(1, 9_000_000_000, 20_000_000_000, 0),
    ];
    table(2, &[1, 2], &tasks)
}

/// The same on a bus whose s is this.
fn on_bus(table: &Table, s: u16) -> Table {
    let timing = [s, 0, 0, 0, 0, 0, 0, 0, 0, 0, 0, 0, 0, 0, 0];
    Table { fourth: 1, timing, ..*table }
}

/// The three tasks that the bus is worked out on by hand, on cores 1 to 3. Each has C 10^6, T = D = 10^9; H is 10, 1000 and 20.
fn bus_of_three(cores: usize) -> Table {
    let tasks = [(1, 10), (2, 1000), (3, 20)].map(|(core, h)| task(core, 1_000_000, 1_000_000_000, h));
    on_bus(&table(1, &vec![1; cores], &tasks), 1_000)
}

fn with_ncap(mut table: Table, ncap: u16) -> Table {
    table.timing[NCAP] = ncap;
    table
}

fn request_delay(table: &Table, core: usize) -> u128 {
    Delays::new(table).request(core - 1)
}

fn judged(table: &Table, number: u8, start: u64) -> Result<Answer, Refusal> {
    Judge::new(table)?.one(number, start)
}

fn holds(bound: u64, by: By, rounds: u64) -> Result<Answer, Refusal> {
    Ok(Answer { verdict: Verdict::Holds { bound, by }, rounds })
}

#[test]
fn delay_figures() {
    let timing = Timing::new(&DDR3_1333);
    let cycles = [timing.pre(), timing.act(), timing.rw(), timing.hit(), timing.conf()];
    assert_eq!(cycles.map(|c| c * timing.tck), [1_500, 12_000, 24_000, 31_500, 58_500]);
    assert_eq!([0, 1, 12, 128].map(|m| timing.run(m)), [0, 21, 155, 1_605]);
    assert_eq!(timing.window(), 128);
    assert_eq!(Timing { ncap: 12, ..timing }.window(), 12);
}

#[test]
fn negative_differences_keep_their_sign() {
    let timing = Timing { wl: 127, cl: 1, trrd: 127, tfaw: 1, ..Timing::new(&DDR3_1333) };
    assert_eq!(timing.act(), 127);
    assert_eq!(timing.rw(), 127 + 4 + 5);
}

#[test]
fn request_delays() {
    let one = [task(1, 1, 100_000_000, 0)];
    assert_eq!(request_delay(&table(2, &[1, 2], &one), 1), 37_500);
    assert_eq!(request_delay(&table(4, &[1, 2, 4, 8], &one), 4), 112_500);
    let sharing = with_ncap(table(1, &[1, 1], &one), 12);
    assert_eq!([1, 2].map(|core| request_delay(&sharing, core)), [318_000, 318_000]);
    let three = with_ncap(table(2, &[1, 1, 2], &one), 12);
    assert_eq!([1, 3].map(|core| request_delay(&three, core)), [681_000, 75_000]);
}

/// RULES 11.13: without reordering there is no run, and tRP + tRCD stay. Of one row hit there is one: 21 cycles more, and 16 for the core apart.
#[test]
fn no_reordering() {
    let one = [task(1, 1, 100_000_000, 0)];
    let sharing = |ncap| with_ncap(table(1, &[1, 1], &one), ncap);
    assert_eq!([1, 2].map(|core| request_delay(&sharing(0), core)), [85_500, 85_500]);
    assert_eq!(request_delay(&sharing(1), 1), 117_000);
    let three = |ncap| with_ncap(table(2, &[1, 1, 2], &one), ncap);
    assert_eq!([1, 2, 3].map(|core| request_delay(&three(0), core)), [160_500, 160_500, 75_000]);
    assert_eq!([1, 3].map(|core| request_delay(&three(1), core)), [216_000, 75_000]);
}

const LISTING: &str = "task core verdict bound by rounds\n\
                       1 1 holds 1007500000 job 2\n\
                       2 2 holds 2003750000 request 2\n\
                       3 1 holds 11007500000 job 3\n\
                       all hold\n";

#[test]
fn the_listing() {
    assert_eq!(listing(&bytes(&listed())), LISTING);
}

/// RULES 11.10.
#[test]
fn the_same_on_a_bus() {
    let mut table = on_bus(&listed(), 37_500);
    assert_eq!(listing(&bytes(&table)), LISTING);
    table.sets[1] = table.sets[0];
    assert_eq!(listing(&bytes(&table)), LISTING);
    let one = [task(1, 1, 100_000_000, 0)];
    let four = on_bus(&self::table(1, &[1; 4], &one), 37_500);
    assert_eq!([1, 2, 3, 4].map(|core| request_delay(&four, core)), [112_500; 4]);
}

#[test]
fn one_less_than_the_bound_misses() {
    let mut table = listed();
    table.task[2].d = 11_007_500_000;
    assert_eq!(judged(&table, 3, 0), holds(11_007_500_000, By::Job, 3));
    table.task[2].d -= 1;
    let text = listing(&bytes(&table));
    assert!(text.ends_with("3 1 misses - - 2\nfirst miss 3\n"), "{text}");
}

#[test]
fn carried_start() {
    let mut table = listed();
    table.task[0].c = 1_100_000_000;
    assert_eq!(judged(&table, 3, 11_007_500_000), holds(11_207_500_000, By::Job, 2));
    assert_eq!(judged(&table, 3, 0), holds(11_207_500_000, By::Job, 3));
}

#[test]
fn refused_starts() {
    let table = listed();
    assert_eq!(judged(&table, 3, 20_000_000_000), Err(Refusal { number: 14, place: 3 }));
    assert_eq!(judged(&table, 3, 20_000_000_001), Err(Refusal { number: 13, place: 3 }));
    assert_eq!(judged(&table, 4, 0), Err(Refusal::plain(12)));
    assert_eq!(judged(&table, 0, 0), Err(Refusal::plain(12)));
}

#[test]
fn the_lower_number_wins_over_the_earlier_task() {
    let table = listed();
    let starts = [2_000_000_000, 0, 20_000_000_001];
    let judge = Judge::new(&table).expect("accepted");
    assert_eq!(judge.all(&starts), Err(Refusal { number: 13, place: 3 }));
    assert_eq!(judge.all(&starts[..2]), Err(Refusal { number: 14, place: 1 }));
}

#[test]
fn two_solutions() {
    let tasks = [task(1, 6_000_000_000, 10_000_000_000, 0), task(1, 3_000_000_000, 20_000_000_000, 0)];
    let table = table(1, &[1], &tasks);
    assert_eq!(judged(&table, 2, 0), holds(9_000_000_000, By::Request, 2));
    assert_eq!(judged(&table, 2, 12_000_000_000), holds(15_000_000_000, By::Request, 2));
}

#[test]
fn short_files() {
    let file = bytes(&listed());
    assert_eq!(answers::read(&file), 0);
    assert_eq!(answers::read(&[]), 1);
    assert_eq!(answers::read(&file[..45]), 1);
    assert_eq!(answers::read(&file[..file.len() - 1]), 2);
    assert_eq!(listing(&[]), "refused 1\n");
}

#[test]
fn limits() {
    let mut table = listed();
    table.task[1].h = 1_000_000;
    assert_eq!(table.check(), Ok(()));
    table.task[1].h += 1;
    assert_eq!(table.check(), Err(Refusal { number: 11, place: 2 }));
    let one = [task(1, 1, 100_000_000, 0)];
    let mut eight = self::table(16, &[1; 8], &one);
    assert_eq!(eight.check(), Ok(()));
    eight.cores = 9;
    assert_eq!(eight.check(), Err(Refusal::plain(5)));
}

#[test]
fn sums_are_whole_numbers() {
    let mut file = [0xFF; LONGEST_BY_HEADER];
    file::seal(&mut file);
    assert_eq!(answers::read(&file), 4);
    file[RECORD..].fill(0);
    file::seal(&mut file);
    assert_eq!(answers::read(&file), 5);
}

#[test]
fn records_and_writing() {
    let file = bytes(&listed());
    assert_eq!(
        [0, 1, 3, 4].map(|number| answers::record(&file, number)),
        [0, SETS_AT + 4, SETS_AT + 4 + 2 * RECORD, 0]
    );
    assert_eq!(file::read(&file), Ok(listed()));
    let mut short = vec![0xA5; file.len() - 1];
    assert_eq!(file::write(&listed(), &mut short), Err(Refusal::plain(15)));
    assert!(short.iter().all(|&byte| byte == 0xA5));
}

/// RULES 11.11; and that figures are not looked at, nor before the sums are.
#[test]
fn whole_or_not() {
    let file = bytes(&listed());
    let mut empty = vec![0; SHORTEST];
    file::seal(&mut empty);
    assert_eq!([answers::whole(&file), answers::whole(&empty), answers::read(&empty)], [0, 0, 5]);
    assert_eq!(answers::whole(&file[..136]), 2);
    let with = |altered: &[(usize, u8)]| {
        let mut file = file.clone();
        altered.iter().for_each(|&(at, value)| file[at] = value);
        file
    };
    assert_eq!([(0, 3), (39, 1), (125, 126)].map(|byte| answers::whole(&with(&[byte]))), [2, 4, 3]);
    let three = with(&[(39, 1), (40, 200), (41, 155)]);
    assert_eq!(answers::whole(&three), 0);
    assert_eq!(file::read(&three).map(|table| table.task[0].c), Ok(1_000_065_025));
    let mut many = with(&[(SETS_AT + 4 + 3 * RECORD - 2, 255)]);
    assert_eq!([answers::whole(&many), answers::read(&many)], [4, 4]);
    file::seal(&mut many);
    assert_eq!([answers::whole(&many), answers::read(&many)], [0, 11 + 3 * 256]);
}

#[test]
fn a_request_total_beyond_64_bits_is_not_small() {
    let mut table = table(7, &[1, 1, 2, 4, 8, 16, 32, 64], &[]);
    table.tasks = 3;
    table.timing = [5000, 127, 127, 127, 127, 4, 127, 127, 127, 127, 127, 1, 127, 2048, 65535];
    table.task[0] = task(1, 1, 100_000_000, 1_000_000);
    table.task[1] = task(2, 1, 1_000_000_000_000, 1);
    table.task[2] = Task { core: 1, c: 999_000_000_000, t: 1_000_000_000_000, d: 1_000_000_000_000, h: 0 };
    assert!(request_delay(&table, 1) * 9_991 * 1_000_000 > u128::from(u64::MAX));
    assert!(matches!(judged(&table, 3, 0), Ok(Answer { verdict: Verdict::Holds { by: By::Job, .. }, .. })));
}

/// (cores - 1) times s, whatever the sets are: 0 on one core, 7 times on eight.
#[test]
fn request_delays_on_a_bus() {
    let one = [task(1, 1, 100_000_000, 0)];
    assert_eq!(request_delay(&on_bus(&table(1, &[1], &one), 65_535), 1), 0);
    assert_eq!(request_delay(&on_bus(&table(1, &[1; 8], &one), 65_535), 8), 458_745);
    assert_eq!(request_delay(&on_bus(&table(8, &[1, 2, 4, 8, 16, 32, 64, 128], &one), 1), 3), 7);
}

/// With A of 3, 100 and 5 and s 1000: each core waits for the other two, and not for itself.
#[test]
fn job_delays_on_a_bus() {
    let mut a = [0; CORES];
    a[..3].copy_from_slice(&[3, 100, 5]);
    let delays = Delays::new(&bus_of_three(3));
    assert_eq!([0, 1, 2].map(|p| delays.job(p, &a)), [105_000, 8_000, 103_000]);
}

/// Within one period A is 2 H. Core 2: 1000 requests at (3 - 1) 1000 are 2,000,000, and the others' 20 + 40 at 1000 are 60,000.
/// Cores 1 and 3: 10 and 20 requests at 2000 are 20,000 and 40,000, and the others' 2040 and 2020 at 1000 are more. With five
/// cores more, which have no task, a request waits 7000.
#[test]
fn three_cores_on_a_bus() {
    let judged = |cores: usize| [1, 2, 3].map(|number| judged(&bus_of_three(cores), number, 0));
    let core_2 = holds(1_060_000, By::Job, 2);
    assert_eq!(judged(3), [holds(1_020_000, By::Request, 2), core_2, holds(1_040_000, By::Request, 2)]);
    assert_eq!(judged(8), [holds(1_070_000, By::Request, 2), core_2, holds(1_140_000, By::Request, 2)]);
}

/// Twice the other core's requests: both delays are 200 times 65,535.
#[test]
fn equal_delays_on_a_bus_are_request() {
    let tasks = [task(1, 1_000_000, 1_000_000_000, 200), task(2, 1_000_000, 1_000_000_000, 100)];
    let table = on_bus(&table(1, &[1, 1], &tasks), 65_535);
    assert_eq!(judged(&table, 1, 0), holds(14_107_000, By::Request, 2));
}

/// RULES 11.6 on a bus, where it holds by 11.10. After another s, other sets and a DRAM it is judged fresh.
#[test]
fn carried_on_a_bus() {
    let (older, mut newer) = (on_bus(&listed(), 37_500), on_bus(&listed(), 37_500));
    newer.task[0].c = 1_100_000_000;
    let third = |older: &Table| carry::answers(older, &newer)[2];
    assert!(carry::worsens(&older, &newer) && !carry::worsens(&newer, &older));
    assert_eq!(Ok(third(&older)), holds(11_207_500_000, By::Job, 2));
    let mut sharing = older;
    sharing.sets[1] = sharing.sets[0];
    for other in [on_bus(&listed(), 37_499), sharing, listed()] {
        assert!(!carry::worsens(&other, &newer));
        assert_eq!(Ok(third(&other)), holds(11_207_500_000, By::Job, 3));
    }
    assert!(!carry::worsens(&Table { fourth: 0, ..older }, &newer));
}

#[test]
fn figures_of_a_bus() {
    let with = |faults: &[(usize, u16)]| {
        let mut table = on_bus(&listed(), 37_500);
        faults.iter().for_each(|&(number, figure)| table.timing[number - 1] = figure);
        table.check()
    };
    let refused = |place: usize| Err(Refusal { number: 16, place: place as u8 });
    assert_eq!([1, 5_001, 65_535].map(|s| with(&[(1, s)])), [Ok(()); 3]);
    assert_eq!(with(&[(1, 0)]), refused(1));
    for number in 2..=FIGURES {
        assert_eq!(with(&[(number, 1)]), refused(number));
        assert_eq!(with(&[(number, 65_535), (15, 1)]), refused(number));
        assert_eq!(with(&[(number, 1), (1, 0)]), refused(1));
    }
}

/// 5 before 16, 16 before 8, and 8 of a bus table like any other.
#[test]
fn order_of_refusals_on_a_bus() {
    let mut table = on_bus(&listed(), 37_500);
    table.sets[1] = 0;
    assert_eq!(table.check(), Err(Refusal { number: 8, place: 2 }));
    table.sets[1] = 4;
    assert_eq!(table.check(), Err(Refusal { number: 8, place: 2 }));
    table.timing[14] = 65_535;
    for (fourth, refusal) in [(1, Refusal::at(16, 14)), (3, Refusal::at(16, 14)), (5, Refusal::plain(5))] {
        assert_eq!(Table { fourth, ..table }.check(), Err(refusal));
    }
}

/// Bits 0 and 1 pass. Without bit 0 a bus's figures are refused as those of a DRAM, and with it a DRAM's as those of a bus. Bit 1 changes neither.
#[test]
fn fourth_bytes() {
    for fourth in 0..=u8::MAX {
        let (of_dram, of_bus) = match fourth {
            0 | 2 => (Ok(()), Err(Refusal { number: 6, place: 1 })),
            1 | 3 => (Err(Refusal { number: 16, place: 2 }), Ok(())),
            _ => (Err(Refusal::plain(5)), Err(Refusal::plain(5))),
        };
        for (table, expected) in [(listed(), of_dram), (on_bus(&listed(), 37_500), of_bus)] {
            let mut file = bytes(&table);
            file[3] = fourth;
            file::seal(&mut file);
            let table = Table { fourth, ..table };
            assert_eq!(table.check(), expected);
            assert_eq!(file::read(&file), expected.map(|()| table));
        }
    }
}

/// RULES 11.12: the floor of task 1's job delay, what cores 1 to 3 make of it, and which delay decides.
#[test]
fn border_of_the_two_delays() {
    let with = |h| {
        let tasks = [task(1, 150_000_000, 1_000_000_000, h), task(2, 1, 100_000_000, 6), task(3, 1, 100_000_000, 4)];
        on_bus(&table(1, &[1, 1, 1], &tasks), 10)
    };
    for (h, request, bound, by) in [
        (10, 200, 150_000_200, By::Request),
        (13, 260, 150_000_260, By::Request),
        (15, 300, 150_000_300, By::Request),
        (16, 320, 150_000_300, By::Job),
    ] {
        let table = with(h);
        let judge = Judge::new(&table).expect("the table is accepted");
        let parts = judge.parts(0, bound);
        assert_eq!((parts.request, &parts.sums[..4]), (request, &[200, 200, 260, 300][..]));
        assert_eq!(judge.one(1, 0), Ok(Answer { verdict: Verdict::Holds { bound, by }, rounds: 2 }));
    }
}

/// The listed table with this fourth byte, and with the timing of its kind.
fn with_fourth(fourth: u8) -> Table {
    let table = if fourth & 1 == 0 { listed() } else { on_bus(&listed(), 37_500) };
    Table { fourth, ..table }
}

/// 18 comes after 11 and 16, and before 12, 13, and an output that is too short.
#[test]
fn salvaged_tables_are_not_judged() {
    let refused = Err(Refusal::plain(18));
    for mut table in [2, 3].map(with_fourth) {
        assert_eq!(
            [(1, 0), (4, 0), (0, 0), (3, u64::MAX)].map(|(number, start)| judged(&table, number, start)),
            [refused; 4]
        );
        let file = bytes(&table);
        assert_eq!([answers::read(&file), answers::whole(&file)], [0, 0]);
        assert_eq!([1, 3, 4].map(|number| answers::view(&file, number)), [0, 0, 12]);
        assert_eq!(answers::judge(&file, &[u64::MAX], &mut [], &mut [], &mut []), 18);
        assert_eq!(listing(&file), "refused 18\n");
        table.task[2].h = 1_000_001;
        assert_eq!(judged(&table, 4, 0), Err(Refusal { number: 11, place: 3 }));
    }
    let mut table = with_fourth(3);
    table.timing[14] = 1;
    assert_eq!(judged(&table, 1, 0), Err(Refusal { number: 16, place: 15 }));
}

/// The older file's refusal comes first, 18 like the others. But for the bit each is the other worsened.
#[test]
fn salvaged_tables_are_not_carried() {
    let carried = |older: &[u8], newer: &[u8]| answers::carry(older, newer, &mut [0; 3], &mut [0; 3], &mut [0; 3]);
    for fourth in [2, 3] {
        let (file, like) = (bytes(&with_fourth(fourth)), bytes(&with_fourth(fourth - 2)));
        assert_eq!([carried(&like, &like), answers::worsens(&like, &like).into()], [0, 1]);
        assert_eq!([carried(&file, &like), carried(&file, &file), carried(&file, &[])], [18 + 65_536; 3]);
        assert_eq!([carried(&like, &file), carried(&[], &file)], [18 + 2 * 65_536, 1 + 65_536]);
        assert_eq!([(&file, &like), (&like, &file), (&file, &file)].map(|(was, is)| answers::worsens(was, is)), [0; 3]);
    }
}

/// What is told of a salvage with room enough, and its new file.
fn salvaged_of(file: &[u8]) -> Result<([u8; 3], Vec<u8>), Refusal> {
    let mut out = [0; LONGEST];
    let Salvaged { promised, kept, stopped, length } = salvage(file, &mut out)?;
    Ok(([promised, kept, stopped], out[..length].to_vec()))
}

/// RULES 11.14.
#[test]
fn a_cut_file() {
    let file = bytes(&listed());
    let told = |file: &[u8]| salvaged_of(file).map(|(counts, _)| counts);
    assert_eq!((file.len(), [1, 2, 3].map(|number| answers::record(&file, number))), (137, [38, 67, 96]));
    let (counts, new) = salvaged_of(&file[..100]).expect("two records are whole");
    assert_eq!((counts, new.len()), ([3, 2, 3], 108));
    assert_eq!((&new[..4], &new[4..96]), (&[2, 2, 2, 2][..], &file[4..96]));
    assert_eq!([answers::whole(&new), answers::read(&new)], [0, 0]);
    assert_eq!(listing(&new), "refused 18\n");
    assert_eq!(told(&file[..67]), Ok([3, 1, 2]));
    assert_eq!([66, 37].map(|length| told(&file[..length])), [Err(Refusal::plain(17)); 2]);
    assert_eq!(told(&file), Err(Refusal::plain(19)));
    assert_eq!(told(&file[..136]), Ok([3, 3, 0]));
    let mut altered = file.clone();
    altered[67] = 3;
    assert_eq!(told(&altered), Ok([3, 1, 2]));
}

/// RULES 10.3: the counts, the number and the length in one word; a refusal as it is elsewhere.
#[test]
fn the_word_of_a_salvage() {
    let file = bytes(&listed());
    let word = |file: &[u8], room: usize| answers::salvage(file, &mut vec![0; room]);
    let of_two = 65_536 * 3 + (1 << 24) * 2 + (1 << 32) * 3 + (1 << 40) * 108;
    assert_eq!([108, 109, 107, 0].map(|room| word(&file[..100], room)), [of_two, of_two, 15, 15]);
    let mut faulty = file.clone();
    faulty[36] = 0;
    assert_eq!([word(&file, 0), word(&faulty, 0)], [19, 8 + 2 * 256]);
}

/// RULES 9.5: with every later refusal the first is given. A record's own number isn't.
#[test]
fn order_of_refusals_of_a_salvage() {
    let mut file = bytes(&listed());
    let told = |file: &[u8], length: usize| salvage(&file[..length], &mut []).map(|_| ());
    let refused = |number, place| Err(Refusal { number, place });
    assert_eq!(told(&file, file.len()), refused(19, 0));
    assert_eq!(told(&file, 67), refused(15, 0));
    file[38] = 3;
    assert_eq!([66, 67, 137].map(|length| told(&file, length)), [refused(17, 0); 3]);
    for (at, value, refusal) in [
        (36, 0, refused(8, 2)),
        (4 + 2 * 7, 4, refused(7, 1)),
        (4 + 2 * 2, 0, refused(6, 3)),
        (3, 3, refused(16, 2)),
        (3, 4, refused(5, 0)),
        (1, 17, refused(5, 0)),
        (0, 9, refused(5, 0)),
    ] {
        file[at] = value;
        assert_eq!([52, 67, 137].map(|length| told(&file, length)), [refusal; 3]);
        assert_eq!(told(&file, 37), refused(17, 0));
    }
    assert_eq!([3, 51].map(|length| told(&file, length)), [refused(17, 0); 2]);
    assert_eq!([0, 1, 2, 3].map(|length| told(&[0; 3], length)), [refused(17, 0); 4]);
}
