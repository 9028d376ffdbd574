//! The three areas as they are lent to the archive: at any alignment, with guard bytes around them that are looked at after each call,
//! and often right beside a page that must not be touched, so that a read outside the area is found too.

use crate::flash::Flash;

const GUARD: usize = 64;
const PAGE: usize = 4096;

unsafe extern "C" {
    fn mmap(address: *mut u8, length: usize, protection: i32, flags: i32, file: i32, offset: i64) -> *mut u8;
    fn mprotect(address: *mut u8, length: usize, protection: i32) -> i32;
    fn munmap(address: *mut u8, length: usize) -> i32;
}

/// Some pages of memory, with one before and one after that can be neither read nor written.
struct Fenced {
    map: *mut u8,
    room: usize,
}

impl Fenced {
    fn new(room: usize) -> Fenced {
        let room = room.next_multiple_of(PAGE);
        // SAFETY: a fresh private anonymous mapping (PROT_READ | PROT_WRITE, MAP_PRIVATE | MAP_ANONYMOUS) that this value owns.
        unsafe {
            let map = mmap(std::ptr::null_mut(), room + 2 * PAGE, 3, 0x22, -1, 0);
            assert!(map as isize != -1, "no memory");
            assert!(mprotect(map, PAGE, 0) == 0 && mprotect(map.add(PAGE + room), PAGE, 0) == 0);
            Fenced { map, room }
        }
    }

    fn bytes(&self) -> &[u8] {
        // SAFETY: the room between the fences is mapped as long as this value lives.
        unsafe { std::slice::from_raw_parts(self.map.add(PAGE), self.room) }
    }

    fn bytes_mut(&mut self) -> &mut [u8] {
        // SAFETY: as above, and this value is the only owner.
        unsafe { std::slice::from_raw_parts_mut(self.map.add(PAGE), self.room) }
    }
}

impl Drop for Fenced {
    fn drop(&mut self) {
        // SAFETY: the mapping of `new`, whole.
        unsafe { munmap(self.map, self.room + 2 * PAGE) };
    }
}

fn guard_byte(index: usize) -> u8 {
    0xa5 ^ (index as u8).wrapping_mul(29)
}

pub struct Lent {
    memory: [Fenced; 3],
    starts: [usize; 3],
    lengths: [usize; 3],
}

impl Lent {
    pub fn new() -> Lent {
        Lent { memory: std::array::from_fn(|_| Fenced::new(8 * PAGE)), starts: [0; 3], lengths: [0; 3] }
    }

    /// Copy the flash in. Four bits of `place` for each area: against the page before it, against the page after it, or between, shifted.
    pub fn load(&mut self, flash: &Flash, place: usize) {
        for (index, area) in flash.areas.iter().enumerate() {
            let needed = area.len() + 2 * GUARD + 16;
            if self.memory[index].room < needed {
                self.memory[index] = Fenced::new(needed);
            }
            let room = self.memory[index].room;
            let start = match (place >> (4 * index)) % 16 {
                0..5 => 0,
                5..10 => room - area.len(),
                shift => GUARD + shift,
            };
            (self.starts[index], self.lengths[index]) = (start, area.len());
            let bytes = self.memory[index].bytes_mut();
            bytes[start..start + area.len()].copy_from_slice(area);
            for outside in Self::outside(start, area.len(), room) {
                outside.for_each(|at| bytes[at] = guard_byte(at));
            }
        }
    }

    /// The places of the guard bytes before and after an area, as far as there is room.
    fn outside(start: usize, length: usize, room: usize) -> [std::ops::Range<usize>; 2] {
        let end = start + length;
        [start.saturating_sub(GUARD)..start, end..(end + GUARD).min(room)]
    }

    fn guards_stand(&self) -> bool {
        (0..3).all(|index| {
            let memory = &self.memory[index];
            let mut outside = Self::outside(self.starts[index], self.lengths[index], memory.room).into_iter().flatten();
            outside.all(|at| memory.bytes()[at] == guard_byte(at))
        })
    }

    pub fn area(&self, index: usize) -> &[u8] {
        &self.memory[index].bytes()[self.starts[index]..self.starts[index] + self.lengths[index]]
    }

    pub fn area_mut(&mut self, index: usize) -> &mut [u8] {
        let (start, length) = (self.starts[index], self.lengths[index]);
        &mut self.memory[index].bytes_mut()[start..start + length]
    }

    /// Nothing, or which area differs and where first.
    pub fn difference(&self, flash: &Flash) -> Option<String> {
        if !self.guards_stand() {
            return Some("a byte outside the areas was changed".into());
        }
        for (index, name) in ["slot 0", "slot 1", "scratch"].into_iter().enumerate() {
            let (got, wanted) = (self.area(index), &flash.areas[index][..]);
            if got != wanted {
                let at = got.iter().zip(wanted).position(|(a, b)| a != b).unwrap_or(got.len().min(wanted.len()));
                return Some(format!("{name} differs first at byte {at}: got {:02x?}, wanted {:02x?}", got.get(at), wanted.get(at)));
            }
        }
        None
    }
}
