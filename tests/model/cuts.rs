//! Demand 3: an exchange cut at any point, with harm, any number of times, and one power-up with allowance enough leaves all three areas
//! as the exchange that was never cut.

use crate::compare::Outcome;
use crate::flash::{Flash, Geometry, Operation};
use crate::lent::Lent;
use crate::loader::{Answer, Done, End};
use crate::random::Random;
use crate::subject::raw;

/// What lies in the sector or unit that was being changed.
#[derive(Clone, Copy, Debug)]
pub enum Harm {
    /// the cut came between two operations
    Clean,
    Arbitrary,
    Zeros,
    Erased,
    /// the first half as the operation would leave it, the rest as it was
    Half,
}

pub const HARMS: [Harm; 5] = [Harm::Clean, Harm::Arbitrary, Harm::Zeros, Harm::Erased, Harm::Half];

fn harm(random: &mut Random, geometry: Geometry, flash: &mut Flash, operation: Operation, harm: Harm) {
    let (area, bytes) = geometry.harmed(operation);
    let half = bytes.start..bytes.start + bytes.len() / 2;
    match harm {
        Harm::Clean => {}
        Harm::Arbitrary => random.fill(&mut flash.area_mut(area)[bytes]),
        Harm::Zeros => flash.area_mut(area)[bytes].fill(0),
        Harm::Erased => flash.area_mut(area)[bytes].fill(0xff),
        Harm::Half => {
            let mut after = flash.clone();
            geometry.carry_out(&mut after, operation);
            flash.area_mut(area)[half.clone()].copy_from_slice(&after.area(area)[half]);
        }
    }
}

/// An exchange that is due, and what it leaves when nothing cuts it.
struct Exchange {
    geometry: Geometry,
    before: Flash,
    done: Done,
    list: Vec<Operation>,
    after: Flash,
    offset: u64,
}

impl Exchange {
    fn new(random: &mut Random, geometry: Geometry, kind: usize) -> Result<Exchange, String> {
        let before = geometry.due(random, kind);
        let plan = geometry.plan(&before).ok_or("the state is damaged")?;
        let mut after = before.clone();
        let answer = geometry.power_up(&mut after, u64::MAX, true);
        let End::Boot(offset) = answer.end else { return Err(format!("the exchange ended in {answer:?}")) };
        if answer.done != [Done::Test, Done::Permanent, Done::Revert][kind] {
            return Err(format!("{answer:?} where kind {kind} is due"));
        }
        let p = if kind == 0 { 0 } else { 1 };
        let Geometry { unit: w, sector: s, sectors: n } = geometry;
        if answer.count as usize != 3 * (n - 1) * (s / w + 2) + 8 + 2 * p + 32 / w {
            return Err(format!("{} operations in {geometry:?}, kind {kind}", answer.count));
        }
        let exchanged = (0..geometry.data_bytes())
            .all(|at| after.areas[0][at] == before.areas[1][at] && after.areas[1][at] == before.areas[0][at]);
        if !exchanged {
            return Err("the data sectors are not exchanged".into());
        }
        Ok(Exchange { geometry, before, done: plan.done, list: plan.list, after, offset })
    }

    /// Both take up the flash again with allowance enough, and both must leave what the exchange never cut leaves.
    fn finish(&self, lent: &mut Lent, flash: &Flash, place: usize) -> Outcome {
        let mut work = flash.clone();
        let wanted = self.geometry.power_up(&mut work, u64::MAX, false);
        lent.load(flash, place);
        let got = lent.power_up(self.geometry, u64::MAX);
        if got != raw(wanted) {
            return Err(format!("taken up again: got {got:?}, wanted {wanted:?}"));
        }
        if work != self.after || wanted.end != End::Boot(self.offset) {
            return Err(format!("the model's flash is not that of the exchange never cut, {wanted:?}"));
        }
        if let Some(difference) = lent.difference(&self.after) {
            return Err(format!("taken up again: {difference}"));
        }
        Ok(1)
    }
}

fn kind_of(random: &mut Random) -> usize {
    random.below(3)
}

/// The chances at one cut: the same whatever else is tried with this seed.
fn at_cut(seed: u64, cut: usize, harm: Harm) -> Random {
    Random(Random(seed ^ (cut as u64) << 8 ^ harm as u64).next())
}

/// Every cut point of one exchange, under each of the harms given.
pub fn every_cut(lent: &mut Lent, seed: u64, geometry: Geometry, kind: usize, harms: &[Harm]) -> Outcome {
    let exchange = Exchange::new(&mut Random(seed), geometry, kind)?;
    let mut rolling = exchange.before.clone();
    let mut cuts = 0;
    for (cut, operation) in exchange.list.iter().enumerate() {
        let at = |problem: String| format!("cut {cut} of {geometry:?}, kind {kind}: {problem}");
        lent.load(&exchange.before, at_cut(seed, cut, Harm::Clean).below(4096));
        let got = lent.power_up(geometry, cut as u64);
        if got != raw(Answer { done: exchange.done, found: 0, count: cut as u64, end: End::Stopped }) {
            return Err(at(format!("stopped with {got:?}")));
        }
        if let Some(difference) = lent.difference(&rolling) {
            return Err(at(difference));
        }
        for kind_of_harm in harms {
            let data = !geometry.harmed(*operation).1.is_empty();
            if !data && !matches!(kind_of_harm, Harm::Clean) {
                continue;
            }
            let mut flash = rolling.clone();
            let mut random = at_cut(seed, cut, *kind_of_harm);
            harm(&mut random, geometry, &mut flash, *operation, *kind_of_harm);
            let place = random.below(4096);
            cuts += exchange.finish(lent, &flash, place).map_err(|problem| at(format!("{kind_of_harm:?}, {problem}")))?;
        }
        if !geometry.carry_out(&mut rolling, *operation) {
            return Err(at("a unit is not erased".into()));
        }
    }
    Ok(cuts)
}

/// A chain of cuts, each during the work of taking up the last, and then the finish.
pub fn repeated(lent: &mut Lent, seed: u64, geometry: Geometry) -> Outcome {
    let mut random = Random(seed);
    let kind = kind_of(&mut random);
    let exchange = Exchange::new(&mut random, geometry, kind)?;
    let mut flash = exchange.before.clone();
    let failures = 1 + random.below(7);
    for failure in 0..failures {
        let at = |problem: String| format!("failure {failure} of {failures} in {geometry:?}, kind {kind}: {problem}");
        let list = geometry.plan(&flash).ok_or_else(|| at("damage".into()))?.list;
        let cut = if random.percent(35) { random.below(list.len().min(50)) } else { random.below(list.len()) };
        lent.load(&flash, random.below(4096));
        let got = lent.power_up(geometry, cut as u64);
        let wanted = geometry.power_up(&mut flash, cut as u64, false);
        if got != raw(wanted) || wanted.end != End::Stopped {
            return Err(at(format!("got {got:?}, wanted {wanted:?}")));
        }
        if let Some(difference) = lent.difference(&flash) {
            return Err(at(difference));
        }
        let kind_of_harm = random.pick(&HARMS);
        harm(&mut random, geometry, &mut flash, list[cut], kind_of_harm);
    }
    exchange.finish(lent, &flash, 0).map(|_| failures as u64)
}

/// Every second cut after one first cut.
pub fn every_second_cut(lent: &mut Lent, seed: u64, geometry: Geometry, first: usize) -> Outcome {
    let mut random = Random(seed);
    let kind = kind_of(&mut random);
    let exchange = Exchange::new(&mut random, geometry, kind)?;
    let mut flash = exchange.before.clone();
    let first = first % exchange.list.len();
    if geometry.carry_out_list(&mut flash, &exchange.list, first as u64) != (first as u64, false) {
        return Err(format!("a unit is not erased before cut {first}"));
    }
    harm(&mut random, geometry, &mut flash, exchange.list[first], Harm::Arbitrary);
    let list = geometry.plan(&flash).ok_or("damage after the first cut")?.list;
    for (second, operation) in list.iter().enumerate() {
        let mut cut = flash.clone();
        harm(&mut random, geometry, &mut cut, *operation, Harm::Arbitrary);
        let at = |problem: String| format!("cuts {first} and {second} of {geometry:?}, kind {kind}: {problem}");
        exchange.finish(lent, &cut, 0).map_err(at)?;
        if !geometry.carry_out(&mut flash, *operation) {
            return Err(at("a unit is not erased".into()));
        }
    }
    Ok(list.len() as u64)
}
