//! The model of document 01 behind the functions of include/scale.h, as a static library: an archive that a test can be tried on. `check.py`
//! builds it beside the model's files, as they are and with one rule broken.
#![allow(dead_code)]

mod flash;
mod image;
mod lent;
mod lists;
mod loader;
mod marking;
mod reached;
mod sha256;
mod subject;
mod trailer;

use flash::{Flash, Geometry};
use std::slice::{from_raw_parts, from_raw_parts_mut};
use subject::{raw, raw_marked, raw_record, RawAnswer, RawMarked, RawRecord};

type Lent = (*mut u8, usize);

/// SAFETY, of all below: as include/scale.h says, each pointer is good for its length and the areas do not overlap.
unsafe fn on<T>(areas: [Lent; 3], work: impl FnOnce(&mut Flash) -> T) -> T {
    let mut flash = Flash { areas: areas.map(|(at, length)| unsafe { from_raw_parts(at, length) }.to_vec()) };
    let answer = work(&mut flash);
    for ((at, length), area) in areas.into_iter().zip(flash.areas) {
        unsafe { from_raw_parts_mut(at, length) }.copy_from_slice(&area);
    }
    answer
}

#[unsafe(no_mangle)]
pub unsafe extern "C" fn scale_sha256(message: *const u8, length: usize, digest: *mut u8) {
    let found = sha256::digest(unsafe { from_raw_parts(message, length) });
    unsafe { from_raw_parts_mut(digest, 32) }.copy_from_slice(&found);
}

#[unsafe(no_mangle)]
pub unsafe extern "C" fn scale_check_image(image: *const u8, length: usize) -> u32 {
    image::check(unsafe { from_raw_parts(image, length) }).err().unwrap_or(0) as u32
}

#[unsafe(no_mangle)]
pub unsafe extern "C" fn scale_record_at(records: *const u8, length: usize, at: usize) -> RawRecord {
    raw_record(image::record_at(unsafe { from_raw_parts(records, length) }, at))
}

#[unsafe(no_mangle)]
pub unsafe extern "C" fn scale_power_up(
    unit: usize, sector: usize, sectors: usize, a: *mut u8, a_length: usize, b: *mut u8, b_length: usize, c: *mut u8, c_length: usize,
    allowance: u64,
) -> RawAnswer {
    let geometry = Geometry { unit, sector, sectors };
    unsafe { on([(a, a_length), (b, b_length), (c, c_length)], |flash| raw(geometry.power_up(flash, allowance, false))) }
}

#[unsafe(no_mangle)]
pub unsafe extern "C" fn scale_full_start(
    unit: usize, sector: usize, sectors: usize, a: *mut u8, a_length: usize, b: *mut u8, b_length: usize, c: *mut u8, c_length: usize,
    allowance: u64, check_slot0: bool,
) -> RawAnswer {
    let geometry = Geometry { unit, sector, sectors };
    unsafe { on([(a, a_length), (b, b_length), (c, c_length)], |flash| raw(geometry.power_up(flash, allowance, check_slot0))) }
}

#[unsafe(no_mangle)]
pub unsafe extern "C" fn scale_mark(
    unit: usize, sector: usize, sectors: usize, a: *mut u8, a_length: usize, b: *mut u8, b_length: usize, c: *mut u8, c_length: usize,
    permanent: bool,
) -> RawMarked {
    let geometry = Geometry { unit, sector, sectors };
    unsafe { on([(a, a_length), (b, b_length), (c, c_length)], |flash| raw_marked(geometry.mark_slot1(flash, permanent))) }
}

#[unsafe(no_mangle)]
pub unsafe extern "C" fn scale_confirm(
    unit: usize, sector: usize, sectors: usize, a: *mut u8, a_length: usize, b: *mut u8, b_length: usize, c: *mut u8, c_length: usize,
) -> RawMarked {
    let geometry = Geometry { unit, sector, sectors };
    unsafe { on([(a, a_length), (b, b_length), (c, c_length)], |flash| raw_marked(geometry.confirm(flash))) }
}
