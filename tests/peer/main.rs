//! Compares the archive with the peer: main [SEED [LISTS]].

mod archive;
mod beginnings;
mod both;
mod calls;
mod ciphers;
mod comparison;
mod comparisons;
mod count;
mod duties;
mod duty;
mod effects;
mod lent;
mod lists;
mod made;
mod marks;
mod random;
mod random_comparisons;
mod random_rates;
mod random_same_runs;
mod random_soundnesses;
mod random_volumes;
mod rate_duties;
mod rate_tables;
mod rates;
mod same_run;
mod same_runs;
mod soundness;
mod soundnesses;
mod tally;
mod test_load;
mod test_loads;
mod vectors;
mod volume;
mod volumes;
mod whole;

use ciphers::Cipher;
use std::process::ExitCode;
use std::time::Instant;
use tally::Tally;

/// The fewest calls that the random lists of a run without LISTS must make.
const FEWEST_CALLS: u64 = 20_000;

const DEFAULT_SEED: u64 = 1;
const DEFAULT_LISTS: u64 = 3_000;

/// How many random volumes there are for each random list.
const VOLUMES_PER_LIST: u64 = 10;

/// How many random runs of tables of rates there are for each random list.
const RATES_PER_LIST: u64 = 10;

/// How many random strings there are for each random list, whose soundness is taken.
const STRINGS_PER_LIST: u64 = 4;

/// How many random pairs of recordings there are for each random list.
const PAIRS_PER_LIST: u64 = 4;

/// How many random pairs of checkpoints there are for each random list.
const SAME_RUNS_PER_LIST: u64 = 2;

/// A number from the command line, or its default.
fn argument(place: usize, default: u64) -> Result<u64, String> {
    match std::env::args().nth(place) {
        None => Ok(default),
        Some(word) => word.parse().map_err(|_| format!("not a number: {word}")),
    }
}

fn compare(seed: u64, lists: u64) -> Result<(), String> {
    if !vectors::all_right() {
        return Err("the peer is wrong: it does not give the papers' vectors".to_string());
    }

    let mut made = Tally::default();
    made::run(seed, &mut made).map_err(|text| format!("made cases, {text}"))?;
    println!("made cases: {} calls, no difference", made.calls);

    for (cipher, name) in [(Cipher::Hc128, "HC-128"), (Cipher::Hc256, "HC-256")] {
        let mut whole = Tally::default();
        let compared = whole::run(seed, cipher, &mut whole).map_err(|text| format!("{name} to the limit and back, {text}"))?;
        println!("{name} to the limit and back: {} calls, {compared} checkpoints, no difference", whole.calls);
    }

    let mut random = Tally::default();
    for list in 0..lists {
        lists::run(seed, list, &mut random).map_err(|text| format!("list {list}, {text}"))?;
    }
    println!("{lists} random lists: no difference");
    if lists >= DEFAULT_LISTS && random.calls < FEWEST_CALLS {
        return Err(format!("fewer than {FEWEST_CALLS} calls"));
    }

    let volumes = VOLUMES_PER_LIST * lists;
    for volume in 0..volumes {
        random_volumes::run(seed, volume, &mut random).map_err(|text| format!("random volume {volume}, {text}"))?;
    }
    println!("{volumes} random volumes: no difference");

    let tables = RATES_PER_LIST * lists;
    for number in 0..tables {
        random_rates::run(seed, number, &mut random).map_err(|text| format!("random tables of rates {number}, {text}"))?;
    }
    println!("{tables} random runs of tables of rates: no difference");

    let strings = STRINGS_PER_LIST * lists;
    for number in 0..strings {
        random_soundnesses::run(seed, number, &mut random).map_err(|text| format!("random string {number}, {text}"))?;
    }
    println!("{strings} random strings: no difference");

    let pairs = PAIRS_PER_LIST * lists;
    for number in 0..pairs {
        random_comparisons::run(seed, number, &mut random).map_err(|text| format!("random pair {number}, {text}"))?;
    }
    println!("{pairs} random pairs of recordings: no difference");

    let pairs = SAME_RUNS_PER_LIST * lists;
    for number in 0..pairs {
        random_same_runs::run(seed, number, &mut random)
            .map_err(|text| format!("random pair of checkpoints {number}, {text}"))?;
    }
    println!("{pairs} random pairs of checkpoints: no difference");
    let faults = random.print_and_check();
    if !faults.is_empty() {
        return Err(faults.join("\n"));
    }
    Ok(())
}

fn main() -> ExitCode {
    let (seed, lists) = match (argument(1, DEFAULT_SEED), argument(2, DEFAULT_LISTS)) {
        (Ok(seed), Ok(lists)) => (seed, lists),
        (Err(text), _) | (_, Err(text)) => {
            eprintln!("{text}\nusage: tests/peer/run [SEED [LISTS]]");
            return ExitCode::from(2);
        }
    };
    let start = Instant::now();
    println!("seed {seed}, {lists} lists");
    match compare(seed, lists) {
        Ok(()) => {
            println!("peer: ok, {} s", start.elapsed().as_secs());
            ExitCode::SUCCESS
        }
        Err(text) => {
            println!("peer: FAILED with seed {seed}, {lists} lists\n{text}");
            ExitCode::FAILURE
        }
    }
}
