//! Random states, each given to every function: the subject's answer and areas against the model's.

use crate::flash::{Flash, Geometry};
use crate::image;
use crate::lent::Lent;
use crate::make;
use crate::random::Random;
use crate::sha256;
use crate::states;
use crate::subject::{self, raw, raw_marked, raw_record};

/// Calls compared, or the difference.
pub type Outcome = Result<u64, String>;

struct Pair<'a> {
    lent: &'a mut Lent,
    work: Flash,
    place: usize,
}

fn described(what: &str, geometry: Geometry, got: String, wanted: String) -> String {
    format!("{what}, {geometry:?}: got {got}, wanted {wanted}")
}

impl Pair<'_> {
    /// One call on fresh copies of the state.
    fn same<T: PartialEq + std::fmt::Debug>(
        &mut self, what: &str, geometry: Geometry, flash: &Flash, subject: impl FnOnce(&mut Lent) -> T, model: impl FnOnce(&mut Flash) -> T,
    ) -> Result<T, String> {
        self.lent.load(flash, self.place);
        self.work.set(flash);
        let got = subject(self.lent);
        let wanted = model(&mut self.work);
        if got != wanted {
            return Err(described(what, geometry, format!("{got:?}"), format!("{wanted:?}")));
        }
        match self.lent.difference(&self.work) {
            Some(difference) => Err(format!("{what}, {geometry:?}: {difference}")),
            None => Ok(wanted),
        }
    }
}

/// An allowance near every edge of the list in force.
fn allowance(random: &mut Random, geometry: Geometry, flash: &Flash) -> u64 {
    let sound = geometry.takes(flash);
    let length = if sound { geometry.plan(flash).map_or(0, |plan| plan.list.len() as u64) } else { 0 };
    match random.below(10) {
        0 => 0,
        1 => 1 + random.below(45) as u64,
        2 => length.saturating_sub(1),
        3 => length,
        4 => length + 1,
        5 => random.pick(&[u64::MAX, u64::MAX - 1, 1 << 63, 1 << 32, (1 << 32) - 1, 1_000_000_000]),
        6 | 7 => length + 1000,
        _ => random.below(length as usize + 2) as u64,
    }
}

/// One state from its seed, through every function.
pub fn one_state(lent: &mut Lent, seed: u64, large: bool) -> Outcome {
    let mut random = Random(seed);
    let (geometry, flash) = if random.percent(12) {
        states::wrong(&mut random)
    } else {
        let geometry = states::geometry(&mut random, large);
        let flash = geometry.state(&mut random);
        (geometry, flash)
    };
    let place = random.below(4096);
    let mut pair = Pair { lent, work: Flash { areas: [const { Vec::new() }; 3] }, place };
    let mut calls = 0;

    let (b, c, d) = (allowance(&mut random, geometry, &flash), allowance(&mut random, geometry, &flash), random.percent(50));
    let what = format!("power-up with allowance {b}");
    pair.same(&what, geometry, &flash, |l| l.power_up(geometry, b), |f| raw(geometry.power_up(f, b, false)))?;
    // what this one left is the next one's flash
    let left = pair.work.clone();
    let what = format!("power-up with allowance {c} after one with {b}");
    pair.same(&what, geometry, &left, |l| l.power_up(geometry, c), |f| raw(geometry.power_up(f, c, false)))?;
    let what = format!("full start with allowance {c}, check {d}");
    pair.same(&what, geometry, &flash, |l| l.full_start(geometry, c, d), |f| raw(geometry.power_up(f, c, d)))?;
    let what = "full start to the end, checked";
    pair.same(what, geometry, &flash, |l| l.full_start(geometry, u64::MAX, true), |f| raw(geometry.power_up(f, u64::MAX, true)))?;
    calls += 4;
    for permanent in [false, true] {
        let what = format!("marking, permanent {permanent}");
        pair.same(&what, geometry, &flash, |l| l.mark(geometry, permanent), |f| raw_marked(geometry.mark_slot1(f, permanent)))?;
        calls += 1;
    }
    pair.same("confirming", geometry, &flash, |l| l.confirm(geometry), |f| raw_marked(geometry.confirm(f)))?;
    pair.same("confirming after a power-up", geometry, &left, |l| l.confirm(geometry), |f| raw_marked(geometry.confirm(f)))?;
    Ok(calls + 2)
}

/// The image check and the digest on bytes of their own.
pub fn one_image(lent: &mut Lent, seed: u64) -> Outcome {
    let mut random = Random(seed);
    let bytes = make::bytes_to_check(&mut random);
    // lent in slot 0's place, often right beside a page that must not be read
    let flash = Flash { areas: [bytes.clone(), Vec::new(), Vec::new()] };
    lent.load(&flash, random.below(16));
    let (got, wanted) = (subject::check_image(lent.area(0)), image::check(&bytes).err().unwrap_or(0) as u32);
    if got != wanted {
        return Err(format!("image check of {} bytes: got {got}, wanted {wanted}", bytes.len()));
    }
    if subject::digest(lent.area(0)) != sha256::digest(&bytes) {
        return Err(format!("digest of {} bytes differs", bytes.len()));
    }
    match lent.difference(&flash) {
        Some(difference) => Err(format!("image check and digest of {} bytes: {difference}", bytes.len())),
        None => Ok(2),
    }
}

/// Trailing records, whole or not, asked at every place and beyond.
pub fn some_records(lent: &mut Lent, seed: u64) -> Outcome {
    let mut random = Random(seed);
    let flash = Flash { areas: [make::records_to_read(&mut random), Vec::new(), Vec::new()] };
    let length = flash.areas[0].len();
    lent.load(&flash, random.below(16));
    for at in (0..length + 3).chain([usize::MAX - 3, usize::MAX]) {
        let (got, wanted) = (subject::record_at(lent.area(0), at), raw_record(image::record_at(&flash.areas[0], at)));
        if got != wanted {
            return Err(format!("place {at} of {length} bytes of records: got {got:?}, wanted {wanted:?}"));
        }
    }
    match lent.difference(&flash) {
        Some(difference) => Err(format!("{length} bytes of records: {difference}")),
        None => Ok(length as u64 + 5),
    }
}

/// Every message length up to some blocks, and a long one.
pub fn digests(seed: u64) -> Outcome {
    let mut random = Random(seed);
    let message = random.bytes(1_000_003);
    let lengths = (0..520).chain([65_535, 65_536, 1_000_003]);
    let mut calls = 0;
    for length in lengths {
        if subject::digest(&message[..length]) != sha256::digest(&message[..length]) {
            return Err(format!("digest of {length} bytes differs"));
        }
        calls += 1;
    }
    Ok(calls)
}
