//! Random flash states, biased so that every branch of document 01 is reached often.

use crate::flash::{Area, Flash, Geometry, AREAS};
use crate::make::{right_image, wrong_image};
use crate::random::Random;
use crate::trailer::magic_bytes;

/// Mostly the smallest geometry of each width; `large` allows the upper bounds as well.
pub fn geometry(random: &mut Random, large: bool) -> Geometry {
    let unit = random.pick(&[1, 2, 4, 8]);
    let smallest = 384 * unit + 32;
    if large {
        return match random.below(4) {
            0 => Geometry { unit: 8, sector: 65_536, sectors: 2 },
            1 => Geometry { unit, sector: smallest, sectors: 128 },
            2 => Geometry { unit, sector: 4096, sectors: 2 + random.below(12) },
            _ => Geometry { unit, sector: smallest + unit * random.below(3000), sectors: 2 + random.below(5) },
        };
    }
    let sector = if random.percent(85) { smallest } else { smallest + unit * random.below(40) };
    Geometry { unit, sector, sectors: random.pick(&[2, 2, 2, 3, 3, 4, 5]) }
}

impl Geometry {
    fn set_magic(&self, random: &mut Random, flash: &mut Flash, area: Area, good: usize, unset: usize) {
        let at = self.magic_at(area);
        let mut bytes = magic_bytes();
        let kind = random.below(100);
        if kind >= good {
            if kind < good + unset {
                bytes = [0xff; 16];
            } else {
                match random.below(5) {
                    0 => bytes[2..].fill(0xff),
                    1 => bytes[random.below(16)] ^= 1 << random.below(8),
                    2 => bytes[..1 + random.below(15)].fill(0xff),
                    3 => bytes = [0; 16],
                    _ => {
                        bytes = [0xff; 16];
                        bytes[random.below(16)] = 0xfe;
                    }
                }
            }
        }
        flash.area_mut(area)[at..].copy_from_slice(&bytes);
    }

    /// A mark with value 01, or Unset, or one of the wrong kinds.
    fn set_mark(&self, random: &mut Random, flash: &mut Flash, area: Area, at: usize, one: usize, unset: usize) {
        let mut unit = [0xff; 8];
        let kind = random.below(100);
        if kind < one {
            unit[0] = 1;
        } else if kind >= one + unset {
            unit[0] = random.pick(&[0, 1, 2, 3, 0xff, 0xfe]);
            if self.unit > 1 && random.percent(50) {
                unit[1 + random.below(self.unit - 1)] = random.pick(&[0, 1, 0xfe]);
            }
        }
        flash.area_mut(area)[at..at + self.unit].copy_from_slice(&unit[..self.unit]);
    }

    fn set_marks(&self, random: &mut Random, flash: &mut Flash, c: usize) {
        let first = self.mark_at(self.sectors - 1, 0);
        let marks = &mut flash.areas[0][first..first + 3 * self.sectors * self.unit];
        marks.fill(0xff);
        (0..c).for_each(|place| marks[place * self.unit] = (place % 3) as u8 + 1);
        if random.percent(40) {
            let junk = self.marks_at(Area::Slot0)..first;
            random.fill(&mut flash.areas[0][junk]);
        }
    }

    fn damage_a_mark(&self, random: &mut Random, flash: &mut Flash) {
        let place = random.below(3 * self.sectors) * self.unit + if random.percent(70) { 0 } else { random.below(self.unit) };
        let at = self.mark_at(self.sectors - 1, 0) + place;
        flash.areas[0][at] = random.pick(&[0, 1, 2, 3, 4, 0xff, 0xfe, 0x81]);
    }

    /// The data sectors of a slot: an image, or anything.
    fn set_data(&self, random: &mut Random, flash: &mut Flash, slot: Area, right: usize) {
        let room = self.data_bytes();
        if random.percent(60) {
            random.fill(&mut flash.area_mut(slot)[..room]);
        }
        let kind = random.below(100);
        let image = if kind < right {
            right_image(random, room)
        } else if kind < 95 {
            wrong_image(random, room)
        } else {
            return;
        };
        flash.area_mut(slot)[..image.len()].copy_from_slice(&image);
    }

    /// Everything by chance. Stale bytes lie in all places that are not read.
    fn by_chance(&self, random: &mut Random) -> Flash {
        let mut flash = self.erased();
        if random.percent(60) {
            flash.areas.iter_mut().for_each(|area| random.fill(area));
        }
        let scratch_good = random.pick(&[5, 5, 5, 50]);
        self.set_magic(random, &mut flash, Area::Scratch, scratch_good, 60);
        self.set_mark(random, &mut flash, Area::Scratch, self.image_ok_at(Area::Scratch), 35, 35);
        let slot1_good = random.pick(&[10, 70]);
        self.set_magic(random, &mut flash, Area::Slot1, slot1_good, 85 - slot1_good);
        self.set_mark(random, &mut flash, Area::Slot1, self.image_ok_at(Area::Slot1), 30, 50);
        self.set_magic(random, &mut flash, Area::Slot0, 70, 15);
        self.set_mark(random, &mut flash, Area::Slot0, self.image_ok_at(Area::Slot0), 25, 60);
        self.set_mark(random, &mut flash, Area::Slot0, self.copy_done_at(Area::Slot0), 40, 45);
        let any = random.below(3 * self.sectors + 1);
        let c = random.pick(&[0, 0, 0, 1, 2, 3, 4, 5, 3 * self.sectors, any]);
        self.set_marks(random, &mut flash, c.min(3 * self.sectors));
        if random.percent(30) {
            self.damage_a_mark(random, &mut flash);
        }
        self.set_data(random, &mut flash, Area::Slot0, 50);
        self.set_data(random, &mut flash, Area::Slot1, 55);
        flash
    }

    /// An exchange due under C with an accepted image, scratch magic not Good; over whatever else lies there.
    pub fn due(&self, random: &mut Random, kind: usize) -> Flash {
        let mut flash = self.erased();
        if random.percent(70) {
            flash.areas.iter_mut().for_each(|area| random.fill(area));
        }
        let room = self.data_bytes();
        let slot0_too = random.percent(75);
        for slot in [Area::Slot0, Area::Slot1] {
            if slot == Area::Slot1 || slot0_too {
                let image = right_image(random, room);
                flash.area_mut(slot)[..image.len()].copy_from_slice(&image);
            }
        }
        self.set_magic(random, &mut flash, Area::Scratch, 0, 60);
        self.set_magic(random, &mut flash, Area::Slot0, 60, 20);
        self.set_mark(random, &mut flash, Area::Slot0, self.image_ok_at(Area::Slot0), 40, 40);
        self.set_mark(random, &mut flash, Area::Slot0, self.copy_done_at(Area::Slot0), 60, 30);
        self.set_marks(random, &mut flash, 0);
        let (ok0, copy_done0) = (self.image_ok_at(Area::Slot0), self.copy_done_at(Area::Slot0));
        let (good1, ok1) = ([100, 100, 0][kind], self.image_ok_at(Area::Slot1));
        self.set_magic(random, &mut flash, Area::Slot1, good1, 100);
        self.set_mark(random, &mut flash, Area::Slot1, ok1, [0, 100, 50][kind], 100);
        if kind == 2 {
            self.set_magic(random, &mut flash, Area::Slot0, 100, 0);
            self.set_mark(random, &mut flash, Area::Slot0, ok0, 0, 100);
            self.set_mark(random, &mut flash, Area::Slot0, copy_done0, 100, 0);
            let c = random.below(3 * self.sectors + 1);
            self.set_marks(random, &mut flash, c);
        }
        flash
    }

    /// A due exchange after some operations, the one in progress harmed.
    fn interrupted(&self, random: &mut Random) -> Flash {
        let kind = random.below(3);
        let mut flash = self.due(random, kind);
        let list = self.plan(&flash).expect("an exchange is due").list;
        let cut = if random.percent(30) { random.below(list.len().min(60)) } else { random.below(list.len()) };
        for operation in &list[..cut] {
            assert!(self.carry_out(&mut flash, *operation));
        }
        let (area, bytes) = self.harmed(list[cut]);
        random.fill(&mut flash.area_mut(area)[bytes]);
        flash
    }

    pub fn state(&self, random: &mut Random) -> Flash {
        match random.below(10) {
            0 => {
                let kind = random.below(3);
                self.due(random, kind)
            }
            1 | 2 => self.interrupted(random),
            3 => {
                let mut flash = self.interrupted(random);
                for _ in 0..1 + random.below(2) {
                    self.hit(random, &mut flash);
                }
                flash
            }
            4 => {
                let mut flash = self.erased();
                if random.percent(50) {
                    flash.areas.iter_mut().for_each(|area| random.fill(area));
                }
                flash
            }
            _ => self.by_chance(random),
        }
    }

    /// One byte of a trailer or of a header changed.
    fn hit(&self, random: &mut Random, flash: &mut Flash) {
        match random.below(3) {
            0 => self.damage_a_mark(random, flash),
            1 => {
                let area = random.pick(&AREAS);
                let at = self.length(area) - 1 - random.below(32);
                flash.area_mut(area)[at] = random.byte();
            }
            _ => {
                let at = random.below(64);
                flash.areas[random.below(2)][at] ^= 1 << random.below(8);
            }
        }
    }
}

/// A geometry or a length that refusal 1 is for.
pub fn wrong(random: &mut Random) -> (Geometry, Flash) {
    let mut geometry = geometry(random, false);
    let mut flash = geometry.state(random);
    match random.below(10) {
        0 => {
            geometry.unit = random.pick(&[0, 3, 5, 6, 7, 9, 16, 32, usize::MAX, 1 << 63]);
            if (1..=32).contains(&geometry.unit) {
                // a sector that would do for this unit
                geometry.sector = (384 * geometry.unit + 32).next_multiple_of(geometry.unit);
            }
        }
        1 => geometry.sector = random.pick(&[0, 1, 31, usize::MAX, 1 << 63, 65_537, 65_544, 65_536 * 2, 1 << 32]),
        2 => geometry.sectors = random.pick(&[0, 1, 129, 130, 256, usize::MAX, 1 << 63]),
        // n times s wraps to the right length
        3 => geometry.sectors |= 1 << 63,
        4 => geometry.sector = 384 * geometry.unit + 32 - geometry.unit,
        5 => geometry.sector += 1 + random.below(geometry.unit.max(2) - 1),
        6 => geometry.sector = 65_536 + geometry.unit,
        _ => return (geometry, wrong_length(random, geometry, flash)),
    }
    if geometry.sectors <= 256 && geometry.sector <= 131_072 && random.percent(75) {
        // lengths that fit, so that nothing else is wrong
        let slot = geometry.sectors * geometry.sector;
        [slot, slot, 2 * geometry.sector].into_iter().zip(&mut flash.areas).for_each(|(length, area)| area.resize(length, 0xff));
    }
    (geometry, flash)
}

fn wrong_length(random: &mut Random, geometry: Geometry, mut flash: Flash) -> Flash {
    let area = random.below(3);
    let length = flash.areas[area].len();
    let other = random.pick(&[length - 1, length + 1, 0, length * 2, length - geometry.sector, length + geometry.sector]);
    flash.areas[area].resize(other, 0xff);
    flash
}
