//! What is compared with the model: the functions of `include/scale.h` in the archive.
//! Built without the archive (no `--cfg archive`), the model stands in for it: that tries this program and says nothing of the archive.

use crate::flash::Geometry;
use crate::image::Found;
use crate::lent::Lent;
use crate::loader::{Answer, End, Marked};

#[derive(Clone, Copy, PartialEq, Debug)]
#[repr(C)]
pub struct RawAnswer {
    pub done: u64,
    pub found: u64,
    pub count: u64,
    pub end: u64,
    pub offset: u64,
    pub refusal: u64,
    pub cause: u64,
}

#[derive(Clone, Copy, PartialEq, Debug)]
#[repr(C)]
pub struct RawMarked {
    pub refusal: u64,
    pub count: u64,
}

#[derive(Clone, Copy, PartialEq, Debug)]
#[repr(C)]
pub struct RawRecord {
    pub found: u64,
    pub kind: u64,
    pub start: u64,
    pub size: u64,
}

/// The model's answer in the numbers of the C boundary.
pub fn raw(answer: Answer) -> RawAnswer {
    let (end, offset, refusal, cause) = match answer.end {
        End::Boot(offset) => (0, offset, 0, 0),
        End::Stopped => (1, 0, 0, 0),
        End::Refused(number, cause) => (2, 0, number, cause),
    };
    RawAnswer { done: answer.done as u64, found: answer.found, count: answer.count, end, offset, refusal, cause }
}

pub fn raw_marked(marked: Marked) -> RawMarked {
    RawMarked { refusal: marked.refusal, count: marked.count }
}

pub fn raw_record(found: Found) -> RawRecord {
    match found {
        Found::End => RawRecord { found: 0, kind: 0, start: 0, size: 0 },
        Found::Record { kind, start, size } => RawRecord { found: 1, kind: kind as u64, start: start as u64, size: size as u64 },
        Found::Stump => RawRecord { found: 2, kind: 0, start: 0, size: 0 },
    }
}

#[cfg(archive)]
mod calls {
    use super::*;

    pub const NAME: &str = "the archive";
    const GUARD: u8 = 0x5a;

    unsafe extern "C" {
        fn scale_sha256(message: *const u8, length: usize, digest: *mut u8);
        fn scale_check_image(image: *const u8, length: usize) -> u32;
        fn scale_record_at(records: *const u8, length: usize, at: usize) -> RawRecord;
        fn scale_power_up(
            unit: usize, sector: usize, sectors: usize, slot0: *mut u8, slot0_length: usize, slot1: *mut u8, slot1_length: usize,
            scratch: *mut u8, scratch_length: usize, allowance: u64,
        ) -> RawAnswer;
        fn scale_full_start(
            unit: usize, sector: usize, sectors: usize, slot0: *mut u8, slot0_length: usize, slot1: *mut u8, slot1_length: usize,
            scratch: *mut u8, scratch_length: usize, allowance: u64, check_slot0: bool,
        ) -> RawAnswer;
        fn scale_mark(
            unit: usize, sector: usize, sectors: usize, slot0: *mut u8, slot0_length: usize, slot1: *mut u8, slot1_length: usize,
            scratch: *mut u8, scratch_length: usize, permanent: bool,
        ) -> RawMarked;
        fn scale_confirm(
            unit: usize, sector: usize, sectors: usize, slot0: *mut u8, slot0_length: usize, slot1: *mut u8, slot1_length: usize,
            scratch: *mut u8, scratch_length: usize,
        ) -> RawMarked;
    }

    impl Lent {
        fn pointers(&mut self) -> [(*mut u8, usize); 3] {
            std::array::from_fn(|index| (self.area_mut(index).as_mut_ptr(), self.area(index).len()))
        }

        pub fn power_up(&mut self, g: Geometry, allowance: u64) -> RawAnswer {
            let [a, b, c] = self.pointers();
            unsafe { scale_power_up(g.unit, g.sector, g.sectors, a.0, a.1, b.0, b.1, c.0, c.1, allowance) }
        }

        pub fn full_start(&mut self, g: Geometry, allowance: u64, check_slot0: bool) -> RawAnswer {
            let [a, b, c] = self.pointers();
            unsafe { scale_full_start(g.unit, g.sector, g.sectors, a.0, a.1, b.0, b.1, c.0, c.1, allowance, check_slot0) }
        }

        pub fn mark(&mut self, g: Geometry, permanent: bool) -> RawMarked {
            let [a, b, c] = self.pointers();
            unsafe { scale_mark(g.unit, g.sector, g.sectors, a.0, a.1, b.0, b.1, c.0, c.1, permanent) }
        }

        pub fn confirm(&mut self, g: Geometry) -> RawMarked {
            let [a, b, c] = self.pointers();
            unsafe { scale_confirm(g.unit, g.sector, g.sectors, a.0, a.1, b.0, b.1, c.0, c.1) }
        }
    }

    pub fn digest(message: &[u8]) -> [u8; 32] {
        let mut room = [[GUARD; 32]; 3];
        unsafe { scale_sha256(message.as_ptr(), message.len(), room[1].as_mut_ptr()) };
        assert!(room[0] == [GUARD; 32] && room[2] == [GUARD; 32], "a byte beside the digest of {} bytes was changed", message.len());
        room[1]
    }

    pub fn check_image(image: &[u8]) -> u32 {
        unsafe { scale_check_image(image.as_ptr(), image.len()) }
    }

    pub fn record_at(records: &[u8], at: usize) -> RawRecord {
        unsafe { scale_record_at(records.as_ptr(), records.len(), at) }
    }
}

#[cfg(not(archive))]
mod calls {
    use super::*;
    use crate::flash::Flash;

    pub const NAME: &str = "NO ARCHIVE, the model itself";

    impl Lent {
        fn with<T>(&mut self, work: impl FnOnce(&mut Flash) -> T) -> T {
            let mut flash = Flash { areas: std::array::from_fn(|index| self.area(index).to_vec()) };
            let answer = work(&mut flash);
            (0..3).for_each(|index| self.area_mut(index).copy_from_slice(&flash.areas[index]));
            answer
        }

        pub fn power_up(&mut self, g: Geometry, allowance: u64) -> RawAnswer {
            self.with(|flash| raw(g.power_up(flash, allowance, false)))
        }

        pub fn full_start(&mut self, g: Geometry, allowance: u64, check_slot0: bool) -> RawAnswer {
            self.with(|flash| raw(g.power_up(flash, allowance, check_slot0)))
        }

        pub fn mark(&mut self, g: Geometry, permanent: bool) -> RawMarked {
            self.with(|flash| raw_marked(g.mark_slot1(flash, permanent)))
        }

        pub fn confirm(&mut self, g: Geometry) -> RawMarked {
            self.with(|flash| raw_marked(g.confirm(flash)))
        }
    }

    pub fn digest(message: &[u8]) -> [u8; 32] {
        crate::sha256::digest(message)
    }

    pub fn check_image(image: &[u8]) -> u32 {
        crate::image::check(image).err().unwrap_or(0) as u32
    }

    pub fn record_at(records: &[u8], at: usize) -> RawRecord {
        raw_record(crate::image::record_at(records, at))
    }
}

pub use calls::{check_image, digest, record_at, NAME};
