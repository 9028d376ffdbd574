//! Document 01, "Marking and confirming".

use crate::flash::{Area, Flash, Geometry, Operation};
use crate::loader::{Marked, UnderWay};
use crate::reached::{reach, Branch};
use crate::trailer::{Magic, Mark};

impl Geometry {
    pub fn mark_slot1(&self, flash: &mut Flash, permanent: bool) -> Marked {
        let refused = |branch, refusal| {
            reach(branch);
            Marked { refusal, count: 0 }
        };
        if !self.takes(flash) {
            return refused(Branch::MarkGeometry, 1);
        }
        match self.under_way(flash) {
            UnderWay::Damage => return refused(Branch::MarkDamage, 2),
            UnderWay::Trailers(_) => return refused(Branch::MarkUnderA, 6),
            UnderWay::Marks(_) => return refused(Branch::MarkUnderB, 6),
            UnderWay::Nothing => {}
        }
        if self.image_ok(flash, Area::Slot1) != Mark::Unset {
            return refused(Branch::MarkOkSet, 5);
        }
        if self.magic(flash, Area::Slot1) != Magic::Unset {
            return refused(Branch::MarkMagicSet, 5);
        }
        let mut list = Vec::new();
        if permanent {
            self.write_mark(&mut list, Area::Slot1, self.image_ok_at(Area::Slot1), 1);
        }
        self.write_magic(&mut list, Area::Slot1);
        reach(if permanent { Branch::MarkedPermanent } else { Branch::MarkedTest });
        self.all_of(flash, &list)
    }

    pub fn confirm(&self, flash: &mut Flash) -> Marked {
        let refused = |branch, refusal| {
            reach(branch);
            Marked { refusal, count: 0 }
        };
        if !self.takes(flash) {
            return refused(Branch::ConfirmGeometry, 1);
        }
        match self.under_way(flash) {
            UnderWay::Damage => return refused(Branch::ConfirmDamage, 2),
            UnderWay::Trailers(_) => return refused(Branch::ConfirmUnderA, 6),
            UnderWay::Marks(_) => return refused(Branch::ConfirmUnderB, 6),
            UnderWay::Nothing => {}
        }
        let rest_met = self.copy_done(flash, Area::Slot0) == Mark::Value(1) && self.image_ok(flash, Area::Slot0) == Mark::Unset;
        if self.magic(flash, Area::Slot0) == Magic::Bad && rest_met {
            reach(Branch::ConfirmOnlyMagicBad);
        }
        if self.magic(flash, Area::Slot0) != Magic::Good {
            return refused(Branch::ConfirmMagic, 7);
        }
        if self.copy_done(flash, Area::Slot0) != Mark::Value(1) {
            return refused(Branch::ConfirmCopyDone, 7);
        }
        if self.image_ok(flash, Area::Slot0) != Mark::Unset {
            return refused(Branch::ConfirmOk, 7);
        }
        let mut list = Vec::new();
        self.write_mark(&mut list, Area::Slot0, self.image_ok_at(Area::Slot0), 1);
        reach(Branch::Confirmed);
        self.all_of(flash, &list)
    }

    fn all_of(&self, flash: &mut Flash, list: &[Operation]) -> Marked {
        let (count, unerased) = self.carry_out_list(flash, list, u64::MAX);
        Marked { refusal: if unerased { 8 } else { 0 }, count }
    }
}
