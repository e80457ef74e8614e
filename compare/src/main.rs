//! Compares the proved library with the own reading, and measures both.
//!
//! `compare check SEED CASES` compares, and `compare bench SEED` measures.

mod bench;
mod border_cases;
mod bus_cases;
mod cases;
mod comparer;
mod ffi;
mod pairs;
mod run_cases;
mod salvage_cases;

use std::collections::BTreeMap;
use std::env;
use std::error::Error;
use std::process::ExitCode;

use compare_model::answers::SHORT_OUTPUT;
use comparer::{Comparer, Salvages, Tally, Verdicts};

fn main() -> Result<ExitCode, Box<dyn Error>> {
    let words: Vec<String> = env::args().skip(1).collect();
    match words.iter().map(String::as_str).collect::<Vec<_>>().as_slice() {
        ["check", seed, cases] => check(seed.parse()?, cases.parse()?),
        ["bench", seed] => bench(seed.parse()?),
        _ => Err("usage: compare check SEED CASES, or compare bench SEED".into()),
    }
}

fn check(seed: u64, count: u64) -> Result<ExitCode, Box<dyn Error>> {
    let mut on = Comparer::new();
    if let Err(difference) = cases::all(&mut on, seed, count) {
        println!("{difference}");
        println!("compare: after {} calls that agree (seed {seed}, {count} tables)", on.tally.calls - 1);
        return Ok(ExitCode::FAILURE);
    }
    println!("{}", summary(seed, count, &on.tally));
    if let Some(lack) = lack(&on.tally, count).filter(|_| count > 0) {
        println!("compare: {lack}, so that this run shows too little");
        return Ok(ExitCode::FAILURE);
    }
    Ok(ExitCode::SUCCESS)
}

fn summary(seed: u64, count: u64, tally: &Tally) -> String {
    format!(
        "compare: {} calls agree (seed {seed}, {count} random tables): {} accepted, {} refused; {} files whole and yet refused; tasks of DRAM tables {}, \
         of bus tables {}, at most {} rounds; {} listings, {} too long for their room; {} records; \
         {} pairs of files, {} of them worsened; {}",
        tally.calls,
        tally.accepted,
        tally.refused.values().sum::<u64>(),
        tally.only_whole,
        verdicts(&tally.dram),
        verdicts(&tally.bus),
        tally.most_rounds,
        tally.listings,
        tally.too_short,
        tally.records,
        tally.pairs,
        tally.worsened,
        salvages(&tally.salvages)
    )
}

fn salvages(of: &Salvages) -> String {
    format!(
        "files salvaged: {} with all records, {} with some, {} of both from salvaged files, {} refused; {} new files followed, {} salvaged ones not judged",
        of.all_kept,
        of.stopped,
        of.again,
        of.refused.values().sum::<u64>(),
        of.followed,
        of.unjudged
    )
}

fn verdicts(of: &Verdicts) -> String {
    format!("{} by request, {} by job, {} missed", of.by_request, of.by_job, of.misses)
}

/// What a run of so many random tables has to meet and this one did not.
fn lack(tally: &Tally, count: u64) -> Option<String> {
    let refusals = (1..=14).chain([16, 18, SHORT_OUTPUT.into()]);
    if let Some(lack) = never_met(refusals, &tally.refused).or_else(|| salvages_lack(&tally.salvages, count)) {
        return Some(lack);
    }
    if tally.only_whole == 0 {
        return Some("no file was whole and yet refused".to_owned());
    }
    if tally.worsened == 0 {
        return Some("no pair was one worsened".to_owned());
    }
    let one_sided = |of: &Verdicts| [of.by_request, of.by_job, of.misses].contains(&0);
    let kinds = [("DRAM", &tally.dram), ("bus", &tally.bus)];
    let (name, of) = kinds.into_iter().find(|(_, of)| one_sided(of))?;
    Some(format!("tasks of {name} tables were {}", verdicts(of)))
}

/// The same of its salvages. Each random table is salvaged too.
fn salvages_lack(of: &Salvages, count: u64) -> Option<String> {
    if let Some(never) = never_met([5, 6, 7, 8, 15, 16, 17, 19], &of.refused) {
        return Some(format!("of a salvage {never}"));
    }
    let too_few = of.all_kept.min(of.stopped).min(of.again) < 1000 || of.followed < 40;
    (too_few || of.unjudged < of.followed + count).then(|| salvages(of))
}

/// Those of the refusals, which the functions can give, that no case met.
fn never_met(refusals: impl IntoIterator<Item = u16>, met: &BTreeMap<u16, u64>) -> Option<String> {
    let never: Vec<u16> = refusals.into_iter().filter(|number| !met.contains_key(number)).collect();
    (!never.is_empty()).then(|| format!("refusals {never:?} were never met"))
}

fn bench(seed: u64) -> Result<ExitCode, Box<dyn Error>> {
    print!("{}", bench::report(seed));
    Ok(ExitCode::SUCCESS)
}
