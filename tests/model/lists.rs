//! Document 01, the lists of operations that "Trailer exchange", "Data exchange" and "Clear-out" order.

use crate::flash::{Area, Content, Flash, Geometry, Operation};
use crate::reached::{reach, Branch};
use crate::trailer::{magic_bytes, Mark};

impl Geometry {
    pub fn write_mark(&self, list: &mut Vec<Operation>, area: Area, at: usize, value: u8) {
        let mut bytes = [0xff; 8];
        bytes[0] = value;
        list.push(Operation::Write(area, at / self.unit, Content::Bytes(bytes)));
    }

    pub fn write_magic(&self, list: &mut Vec<Operation>, area: Area) {
        for (index, unit) in magic_bytes().chunks(self.unit).enumerate() {
            let mut bytes = [0xff; 8];
            bytes[..self.unit].copy_from_slice(unit);
            list.push(Operation::Write(area, self.magic_at(area) / self.unit + index, Content::Bytes(bytes)));
        }
    }

    /// Lines 1 and 2 of the trailer exchange.
    pub fn begin_trailers(&self, list: &mut Vec<Operation>, with_ok: bool) {
        list.push(Operation::Erase(Area::Scratch, 1));
        if with_ok {
            self.write_mark(list, Area::Scratch, self.image_ok_at(Area::Scratch), 1);
        }
        self.write_magic(list, Area::Scratch);
    }

    /// Lines 3 to 6 of the trailer exchange.
    pub fn finish_trailers(&self, list: &mut Vec<Operation>, with_ok: bool) {
        list.push(Operation::Erase(Area::Slot1, self.sectors - 1));
        list.push(Operation::Erase(Area::Slot0, self.sectors - 1));
        if with_ok {
            self.write_mark(list, Area::Slot0, self.image_ok_at(Area::Slot0), 1);
        }
        for j in 0..3 {
            self.write_mark(list, Area::Slot0, self.mark_at(self.sectors - 1, j), j as u8 + 1);
        }
        self.write_magic(list, Area::Slot0);
        list.push(Operation::Erase(Area::Scratch, 1));
    }

    /// The data exchange after the first c marks, and copy done.
    pub fn exchange_data(&self, list: &mut Vec<Operation>, c: usize) {
        let per_sector = self.units_per_sector();
        let mut standing = 3;
        for sector in (0..self.data_sectors()).rev() {
            let moves = [
                (Area::Slot1, sector, Area::Scratch, 0),
                (Area::Slot0, sector, Area::Slot1, sector),
                (Area::Scratch, 0, Area::Slot0, sector),
            ];
            for (j, (from, from_sector, to, to_sector)) in moves.into_iter().enumerate() {
                standing += 1;
                if standing <= c {
                    continue;
                }
                list.push(Operation::Erase(to, to_sector));
                for unit in 0..per_sector {
                    let content = Content::CopyOf(from, from_sector * per_sector + unit);
                    list.push(Operation::Write(to, to_sector * per_sector + unit, content));
                }
                self.write_mark(list, Area::Slot0, self.mark_at(sector, j), j as u8 + 1);
            }
        }
        self.write_mark(list, Area::Slot0, self.copy_done_at(Area::Slot0), 1);
    }

    pub fn clear_out(&self, flash: &Flash) -> Vec<Operation> {
        let mut list: Vec<_> = (0..self.data_sectors()).map(|sector| Operation::Erase(Area::Slot1, sector)).collect();
        if self.image_ok(flash, Area::Slot0) == Mark::Unset {
            reach(Branch::ClearOkWritten);
            self.write_mark(&mut list, Area::Slot0, self.image_ok_at(Area::Slot0), 1);
        } else {
            reach(Branch::ClearOkLeft);
        }
        list.push(Operation::Erase(Area::Slot1, self.sectors - 1));
        list
    }
}
