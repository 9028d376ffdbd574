//! Document 01, "Trailer, counted from the end of slot or scratch".

use crate::flash::{Area, Flash, Geometry};

const MAGIC_WORDS: [u32; 4] = [0xf395_c277, 0x7fef_d260, 0x0f50_5235, 0x8079_b62c];

#[derive(Clone, Copy, PartialEq, Debug)]
pub enum Magic {
    Good,
    Unset,
    Bad,
}

#[derive(Clone, Copy, PartialEq, Debug)]
pub enum Mark {
    Unset,
    Value(u8),
    Bad,
}

pub fn magic_bytes() -> [u8; 16] {
    std::array::from_fn(|i| MAGIC_WORDS[i / 4].to_le_bytes()[i % 4])
}

impl Geometry {
    pub fn magic_at(&self, area: Area) -> usize {
        self.length(area) - 16
    }

    pub fn image_ok_at(&self, area: Area) -> usize {
        self.length(area) - 24
    }

    pub fn copy_done_at(&self, area: Area) -> usize {
        self.length(area) - 32
    }

    pub fn marks_at(&self, area: Area) -> usize {
        self.copy_done_at(area) - 384 * self.unit
    }

    /// Mark j (0 to 2) of a sector, in slot 0.
    pub fn mark_at(&self, sector: usize, j: usize) -> usize {
        self.marks_at(Area::Slot0) + (127 - sector) * 3 * self.unit + j * self.unit
    }

    pub fn magic(&self, flash: &Flash, area: Area) -> Magic {
        let bytes = &flash.area(area)[self.magic_at(area)..];
        if bytes == magic_bytes() {
            Magic::Good
        } else if bytes.iter().all(|byte| *byte == 0xff) {
            Magic::Unset
        } else {
            Magic::Bad
        }
    }

    pub fn mark(&self, flash: &Flash, area: Area, at: usize) -> Mark {
        let unit = &flash.area(area)[at..at + self.unit];
        let rest_unset = unit[1..].iter().all(|byte| *byte == 0xff);
        match (unit[0], rest_unset) {
            (0xff, true) => Mark::Unset,
            (value, true) => Mark::Value(value),
            (_, false) => Mark::Bad,
        }
    }

    pub fn image_ok(&self, flash: &Flash, area: Area) -> Mark {
        self.mark(flash, area, self.image_ok_at(area))
    }

    pub fn copy_done(&self, flash: &Flash, area: Area) -> Mark {
        self.mark(flash, area, self.copy_done_at(area))
    }

    /// The 3n marks that B reads, from sector n - 1 down to 0.
    pub fn marks(&self, flash: &Flash) -> Vec<Mark> {
        let places = (0..self.sectors).rev().flat_map(|sector| (0..3).map(move |j| (sector, j)));
        places.map(|(sector, j)| self.mark(flash, Area::Slot0, self.mark_at(sector, j))).collect()
    }
}
