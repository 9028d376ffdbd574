//! Document 01, "The flash" and "Harm of a power failure": geometry, areas, operations one at a time.

use crate::reached::{reach, Branch};

#[derive(Clone, Copy, PartialEq, Debug)]
pub struct Geometry {
    pub unit: usize,
    pub sector: usize,
    pub sectors: usize,
}

#[derive(Clone, Copy, PartialEq, Debug)]
pub enum Area {
    Slot0,
    Slot1,
    Scratch,
}

pub const AREAS: [Area; 3] = [Area::Slot0, Area::Slot1, Area::Scratch];

#[derive(Clone, PartialEq)]
pub struct Flash {
    pub areas: [Vec<u8>; 3],
}

/// What a write puts into its unit: bytes known beforehand, or another unit as it is then.
#[derive(Clone, Copy, Debug)]
pub enum Content {
    Bytes([u8; 8]),
    CopyOf(Area, usize),
}

#[derive(Clone, Copy, Debug)]
pub enum Operation {
    /// one sector, by its number in the area
    Erase(Area, usize),
    /// one unit, by its number in the area
    Write(Area, usize, Content),
}

impl Flash {
    pub fn area(&self, area: Area) -> &Vec<u8> {
        &self.areas[area as usize]
    }

    pub fn area_mut(&mut self, area: Area) -> &mut Vec<u8> {
        &mut self.areas[area as usize]
    }

    /// Take the other flash's bytes without a new allocation.
    pub fn set(&mut self, other: &Flash) {
        for (mine, theirs) in self.areas.iter_mut().zip(&other.areas) {
            mine.clone_from(theirs);
        }
    }
}

impl Geometry {
    pub fn data_sectors(&self) -> usize {
        self.sectors - 1
    }

    pub fn data_bytes(&self) -> usize {
        self.data_sectors() * self.sector
    }

    pub fn units_per_sector(&self) -> usize {
        self.sector / self.unit
    }

    pub fn trailer_sector(&self, area: Area) -> usize {
        if area == Area::Scratch { 1 } else { self.sectors - 1 }
    }

    pub fn length(&self, area: Area) -> usize {
        self.sector * (self.trailer_sector(area) + 1)
    }

    /// All 0xff.
    pub fn erased(&self) -> Flash {
        Flash { areas: AREAS.map(|area| vec![0xff; self.length(area)]) }
    }

    /// Refusal 1 is for all that this does not take.
    pub fn takes(&self, flash: &Flash) -> bool {
        if ![1, 2, 4, 8].contains(&self.unit) {
            reach(Branch::UnitWrong);
            return false;
        }
        let sector_wrong = if self.sector % self.unit != 0 {
            Some(Branch::SectorNoMultiple)
        } else if self.sector < 384 * self.unit + 32 {
            Some(Branch::SectorTooSmall)
        } else if self.sector > 65_536 {
            Some(Branch::SectorTooLarge)
        } else if self.sectors < 2 {
            Some(Branch::SectorsTooFew)
        } else if self.sectors > 128 {
            Some(Branch::SectorsTooMany)
        } else {
            None
        };
        if let Some(branch) = sector_wrong {
            reach(branch);
            return false;
        }
        let short = [Branch::Slot0Short, Branch::Slot1Short, Branch::ScratchShort];
        let long = [Branch::Slot0Long, Branch::Slot1Long, Branch::ScratchLong];
        for area in AREAS {
            let (lent, wanted) = (flash.area(area).len(), self.length(area));
            if lent != wanted {
                reach(if lent < wanted { short } else { long }[area as usize]);
                return false;
            }
        }
        self.reach_taken();
        true
    }

    fn reach_taken(&self) {
        reach(Branch::GeometryTaken);
        reach([Branch::Unit1, Branch::Unit2, Branch::Unit4, Branch::Unit8][self.unit.trailing_zeros() as usize]);
        let at_bounds = [
            (self.sector == 384 * self.unit + 32, Branch::SectorSmallest),
            (self.sector == 65_536, Branch::SectorLargest),
            (self.sectors == 2, Branch::SectorsLeast),
            (self.sectors == 128, Branch::SectorsMost),
        ];
        at_bounds.iter().filter(|(at, _)| *at).for_each(|(_, branch)| reach(*branch));
    }

    /// Carry out one operation. A unit is written only if its bytes are all 0xff; otherwise nothing happens and this is false.
    pub fn carry_out(&self, flash: &mut Flash, operation: Operation) -> bool {
        match operation {
            Operation::Erase(area, sector) => {
                let start = sector * self.sector;
                flash.area_mut(area)[start..start + self.sector].fill(0xff);
            }
            Operation::Write(area, unit, content) => {
                let bytes = match content {
                    Content::Bytes(bytes) => bytes,
                    Content::CopyOf(from, source) => {
                        let mut bytes = [0xff; 8];
                        let start = source * self.unit;
                        bytes[..self.unit].copy_from_slice(&flash.area(from)[start..start + self.unit]);
                        bytes
                    }
                };
                let start = unit * self.unit;
                let target = &mut flash.area_mut(area)[start..start + self.unit];
                if target.iter().any(|byte| *byte != 0xff) {
                    return false;
                }
                target.copy_from_slice(&bytes[..self.unit]);
            }
        }
        true
    }

    /// The bytes that a cut inside this operation may leave arbitrary. Empty for a trailer sector: there it happens or does not.
    pub fn harmed(&self, operation: Operation) -> (Area, std::ops::Range<usize>) {
        let (area, start, length) = match operation {
            Operation::Erase(area, sector) => (area, sector * self.sector, self.sector),
            Operation::Write(area, unit, _) => (area, unit * self.unit, self.unit),
        };
        if start / self.sector == self.trailer_sector(area) { (area, start..start) } else { (area, start..start + length) }
    }
}
