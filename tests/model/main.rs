//! An independent implementation of document 01 (the document and docs/DECISIONS.md decide, not the proved source), compared with the
//! archive through the C boundary. `tests/model/run` builds and starts it; see there for the arguments.

mod compare;
mod crash;
mod cuts;
mod edges;
mod flash;
mod image;
mod lent;
mod lists;
mod loader;
mod make;
mod marking;
mod random;
mod reached;
mod samples;
mod sha256;
mod show;
mod states;
mod subject;
mod trailer;

use compare::Outcome;
use cuts::{Harm, HARMS};
use flash::Geometry;
use lent::Lent;
use random::Random;
use std::time::Instant;

/// How much a mode does.
struct Size {
    states: u64,
    large_states: u64,
    images: u64,
    records: u64,
    chains: u64,
    /// unit and sectors per slot of the exchanges that are cut at every point, and the name under which they are run again
    exchanges: &'static [(usize, usize)],
    cuts: &'static str,
    harms: &'static [Harm],
    /// each first cut whose number divides by this is followed by every second cut
    second_cuts_every: Option<usize>,
}

const SHORT: Size = Size {
    states: 40_000,
    large_states: 60,
    images: 40_000,
    records: 2_000,
    chains: 3_000,
    exchanges: &[(1, 2), (2, 2), (4, 2), (8, 2), (1, 3), (2, 3), (4, 3), (8, 3)],
    cuts: "cuts",
    harms: &[Harm::Clean, Harm::Arbitrary],
    second_cuts_every: None,
};

const LONG: Size = Size {
    states: 300_000,
    large_states: 600,
    images: 300_000,
    records: 20_000,
    chains: 40_000,
    exchanges: &[(1, 2), (1, 3), (1, 5), (2, 2), (2, 3), (2, 5), (4, 2), (4, 3), (4, 5), (8, 2), (8, 3), (8, 5)],
    cuts: "long-cuts",
    harms: &HARMS,
    second_cuts_every: Some(1),
};

/// The gate's seed. The long mode takes one from the system.
const SEED: u64 = 2026;

/// The smallest geometry of each width.
fn smallest(unit: usize, sectors: usize) -> Geometry {
    Geometry { unit, sector: 384 * unit + 32, sectors }
}

/// The seed of one case: from a part, and a number in it.
fn seed(base: u64, part: u64, number: u64) -> u64 {
    let mixed = Random(base).next();
    Random(mixed ^ part << 56 ^ number).next()
}

fn each(what: &'static str, seeds: impl Iterator<Item = u64>, mut case: impl FnMut(u64) -> Outcome) -> Outcome {
    let mut sum = 0;
    for seed in seeds {
        crash::now(what, seed);
        sum += case(seed).map_err(|problem| format!("{what}, seed {seed}: {problem}\n  again: tests/model/run {what} {seed}"))?;
    }
    Ok(sum)
}

fn every_cut(lent: &mut Lent, seed: u64, size: &Size) -> Outcome {
    let mut sum = 0;
    for (unit, sectors) in size.exchanges {
        for kind in 0..3 {
            sum += cuts::every_cut(lent, seed, smallest(*unit, *sectors), kind, size.harms)?;
        }
    }
    Ok(sum)
}

fn second_cuts(lent: &mut Lent, seed: u64, every: usize) -> Outcome {
    let mut sum = 0;
    for unit in [1, 2, 4, 8] {
        // a revert of two sectors has the longest list
        let longest = 3 * (384 + 32 / unit + 2) + 10 + 32 / unit;
        for first in (0..longest).step_by(every) {
            sum += cuts::every_second_cut(lent, seed.wrapping_add(first as u64), smallest(unit, 2), first)?;
        }
    }
    Ok(sum)
}

fn chain(lent: &mut Lent, seed: u64) -> Outcome {
    let mut random = Random(seed);
    let geometry = smallest(random.pick(&[1, 2, 4, 8]), random.pick(&[2, 2, 3, 4]));
    cuts::repeated(lent, random.next(), geometry)
}

fn compare_all(size: &Size, base: u64) -> Result<String, String> {
    let lent = &mut Lent::new();
    let edges = edges::run();
    reached::clear();
    let seeds = |part: u64, count: u64| (0..count).map(move |number| seed(base, part, number));
    let digests = compare::digests(seed(base, 0, 0))?;
    let images = each("image", seeds(1, size.images), |seed| compare::one_image(lent, seed))?;
    let records = each("records", seeds(7, size.records), |seed| compare::some_records(lent, seed))?;
    let states = each("state", seeds(2, size.states), |seed| compare::one_state(lent, seed, false))?;
    let large = each("large", seeds(3, size.large_states), |seed| compare::one_state(lent, seed, true))?;
    let branches = reached::verdict()?;
    let began = Instant::now();
    let cuts = each(size.cuts, seeds(4, 1), |seed| every_cut(lent, seed, size))?;
    let cuts_took = began.elapsed().as_secs_f64();
    let chains = each("chain", seeds(5, size.chains), |seed| chain(lent, seed))?;
    let pairs = match size.second_cuts_every {
        Some(every) => each("pairs", seeds(6, 1), |seed| second_cuts(lent, seed, every))?,
        None => 0,
    };
    reached::verdict()?;
    let made = [edges, images, records, digests, states, large, cuts, chains, pairs.max(u64::from(size.second_cuts_every.is_none()))];
    if made.contains(&0) {
        return Err(format!("a part made no comparison: {made:?}"));
    }
    let total = size.states + size.large_states;
    Ok(format!(
        "{edges} edges, {total} states ({} calls), {images} image calls, {records} places of records, {digests} digests, {branches} branches all reached, \
         {cuts} cuts taken up ({cuts_took:.1} s), {} chains of {chains} cuts, {pairs} pairs of cuts: no difference",
        states + large,
        size.chains
    ))
}

/// All of a mode, with its seed said first: a run that ends in any way can be made again.
fn run(mode: &str, size: &Size, base: u64) -> Result<String, String> {
    println!("model: seed {base} (again: tests/model/run {mode} {base})");
    compare_all(size, base)
}

fn fail(problem: &str) -> ! {
    eprintln!("FAILED: {problem}");
    std::process::exit(1)
}

fn main() {
    crash::install();
    let arguments: Vec<String> = std::env::args().skip(1).collect();
    let number = |at: usize| arguments.get(at).map(|text| text.parse::<u64>().expect("a whole number"));
    let mode = arguments.first().map_or("short", String::as_str);
    let lent = &mut Lent::new();
    let again = || number(1).expect("the seed that was printed");
    let result = match mode {
        "short" | "long" if cfg!(not(archive)) => Err("this program was built without the archive".into()),
        "short" | "self" => run(mode, &SHORT, number(1).unwrap_or(SEED)),
        "long" => run(mode, &LONG, number(1).unwrap_or_else(random::from_the_system)),
        "state" => compare::one_state(lent, again(), false).map(|calls| format!("{calls} calls")),
        "large" => compare::one_state(lent, again(), true).map(|calls| format!("{calls} calls")),
        "image" => compare::one_image(lent, again()).map(|calls| format!("{calls} calls")),
        "records" => compare::some_records(lent, again()).map(|places| format!("{places} places")),
        "cuts" => every_cut(lent, again(), &SHORT).map(|cuts| format!("{cuts} cuts")),
        "long-cuts" => every_cut(lent, again(), &LONG).map(|cuts| format!("{cuts} cuts")),
        "chain" => chain(lent, again()).map(|cuts| format!("{cuts} cuts")),
        "pairs" => second_cuts(lent, again(), 1).map(|cuts| format!("{cuts} pairs")),
        "edges" => return println!("{} edges of document 01 hold in the model", edges::run()),
        "dumps" => {
            let folder = std::path::Path::new(arguments.get(1).map_or("dumps", String::as_str));
            return samples::write_dumps(folder).expect("the folder can be written");
        }
        "show" => {
            let program = arguments.get(1).map_or("target/bin/show", String::as_str);
            let long = arguments.get(2).is_some_and(|word| word == "long");
            let given = number(if long { 3 } else { 2 });
            let base = given.unwrap_or_else(|| if long { random::from_the_system() } else { SEED });
            println!("show: seed {base} (again: tests/model/run show {program} {}{base})", if long { "long " } else { "" });
            match show::compare(program, base, if long { 20_000 } else { 1_000 }) {
                Ok(runs) => return println!("show: {runs} inputs, each line as the model's"),
                Err(problem) => fail(&problem),
            }
        }
        "example" => return samples::print_example(),
        "branches" => {
            let result = run(mode, &SHORT, number(1).unwrap_or(SEED));
            reached::print();
            result
        }
        _ => Err(format!("no such mode: {mode}")),
    };
    match result {
        Ok(line) => println!("model against {}: {line}", subject::NAME),
        Err(problem) => fail(&format!("model against {}: {problem}", subject::NAME)),
    }
}
