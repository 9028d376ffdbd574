//! Document 01, "What a power-up does": the decision, the list in force, and the answer.

use crate::flash::{Area, Flash, Geometry, Operation};
use crate::image;
use crate::reached::{reach, Branch};
use crate::trailer::{Magic, Mark};

/// What was done, in document 01's order, which numbers it at the C boundary.
#[derive(Clone, Copy, PartialEq, Debug)]
pub enum Done {
    None = 0,
    Test = 1,
    Permanent = 2,
    Revert = 3,
    Resumed = 4,
    Cleared = 5,
}

#[derive(Clone, Copy, PartialEq, Debug)]
pub enum End {
    Boot(u64),
    Stopped,
    /// the number, and the cause that goes with 4
    Refused(u64, u64),
}

#[derive(Clone, Copy, PartialEq, Debug)]
pub struct Answer {
    pub done: Done,
    pub found: u64,
    pub count: u64,
    pub end: End,
}

#[derive(Clone, Copy, PartialEq, Debug)]
pub struct Marked {
    pub refusal: u64,
    pub count: u64,
}

/// What A and B find.
#[derive(Clone, Copy, PartialEq, Debug)]
pub enum UnderWay {
    Nothing,
    /// A: the trailer exchange, and whether scratch has image ok
    Trailers(bool),
    /// B: c marks
    Marks(usize),
    Damage,
}

/// The list in force.
pub struct Plan {
    pub done: Done,
    pub found: u64,
    pub list: Vec<Operation>,
}

impl Geometry {
    pub fn under_way(&self, flash: &Flash) -> UnderWay {
        match self.magic(flash, Area::Scratch) {
            Magic::Unset => reach(Branch::ScratchUnset),
            Magic::Bad => reach(Branch::ScratchBad),
            Magic::Good => {
                reach(Branch::ScratchGood);
                let (branch, found) = match self.image_ok(flash, Area::Scratch) {
                    Mark::Unset => (Branch::ATest, UnderWay::Trailers(false)),
                    Mark::Value(1) => (Branch::APermanent, UnderWay::Trailers(true)),
                    Mark::Value(_) => (Branch::AOtherValue, UnderWay::Damage),
                    Mark::Bad => (Branch::ABad, UnderWay::Damage),
                };
                reach(branch);
                return found;
            }
        }
        let outside = match (self.magic(flash, Area::Slot0), self.copy_done(flash, Area::Slot0)) {
            (Magic::Unset, _) => Some(Branch::BSlot0Unset),
            (Magic::Bad, _) => Some(Branch::BSlot0Bad),
            (Magic::Good, Mark::Value(1)) => Some(Branch::BCopyDone01),
            (Magic::Good, Mark::Value(_)) => Some(Branch::BCopyDoneOther),
            (Magic::Good, Mark::Bad) => Some(Branch::BCopyDoneBad),
            (Magic::Good, Mark::Unset) => None,
        };
        match outside {
            Some(branch) => {
                reach(branch);
                UnderWay::Nothing
            }
            None => self.run_of_marks(flash),
        }
    }

    /// B's reading of the marks.
    fn run_of_marks(&self, flash: &Flash) -> UnderWay {
        let marks = self.marks(flash);
        let unread = self.marks_at(Area::Slot0)..self.mark_at(self.sectors - 1, 0);
        if flash.area(Area::Slot0)[unread].iter().any(|byte| *byte != 0xff) {
            reach(Branch::BJunkUnread);
        }
        let written = marks.iter().take_while(|mark| **mark != Mark::Unset).count();
        for (place, mark) in marks.iter().enumerate() {
            let branch = match mark {
                Mark::Unset => continue,
                Mark::Bad => Branch::BBadMark,
                Mark::Value(value) if !(1..=3).contains(value) => Branch::BOtherValue,
                Mark::Value(value) if place > written => {
                    let fits = *value as usize == place % 3 + 1;
                    if written == 0 {
                        Branch::BUnsetFront
                    } else if written >= 3 && fits {
                        Branch::BGapFits
                    } else {
                        Branch::BGap
                    }
                }
                Mark::Value(value) if *value as usize != place % 3 + 1 => Branch::BOutOfTurn,
                Mark::Value(_) => continue,
            };
            reach(branch);
            return UnderWay::Damage;
        }
        let (branch, found) = match written {
            0 => (Branch::BNone, UnderWay::Nothing),
            1 => (Branch::BOne, UnderWay::Damage),
            2 => (Branch::BTwo, UnderWay::Damage),
            3 => (Branch::BThree, UnderWay::Marks(3)),
            c if c == 3 * self.sectors => (Branch::BAll, UnderWay::Marks(c)),
            c if c % 3 == 0 => (Branch::BWholeTriple, UnderWay::Marks(c)),
            c => (Branch::BInsideTriple, UnderWay::Marks(c)),
        };
        reach(branch);
        found
    }

    /// The states of document 003, first match wins.
    fn meaning(&self, flash: &Flash) -> Done {
        let (magic0, magic1) = (self.magic(flash, Area::Slot0), self.magic(flash, Area::Slot1));
        let (ok0, ok1) = (self.image_ok(flash, Area::Slot0), self.image_ok(flash, Area::Slot1));
        let copy_done0 = self.copy_done(flash, Area::Slot0);
        let ready_for_revert = magic0 == Magic::Good && ok0 == Mark::Unset && copy_done0 == Mark::Value(1);
        if magic0 == Magic::Bad && ok0 == Mark::Unset && copy_done0 == Mark::Value(1) && magic1 == Magic::Unset {
            reach(Branch::FourOnlyMagic0Bad);
        }
        match (magic1, ok1) {
            (Magic::Good, Mark::Unset) => {
                reach(if ready_for_revert { Branch::StateIWhereIIIIsReady } else { Branch::StateI });
                return Done::Test;
            }
            (Magic::Good, Mark::Value(1)) => {
                reach(Branch::StateII);
                return Done::Permanent;
            }
            (Magic::Good, Mark::Value(_)) => reach(Branch::FourOkOther),
            (Magic::Good, Mark::Bad) => reach(Branch::FourOkBad),
            (Magic::Unset, _) if ready_for_revert => {
                reach(Branch::StateIII);
                return Done::Revert;
            }
            (Magic::Bad, _) if ready_for_revert => reach(Branch::FourHalfMagic),
            _ if magic0 != Magic::Good => reach(Branch::FourSlot0NotGood),
            _ if ok0 != Mark::Unset => reach(Branch::FourConfirmed),
            _ => reach(Branch::FourCopyDoneOther),
        }
        Done::None
    }

    /// A, B, C: what is in force, or damage.
    pub fn plan(&self, flash: &Flash) -> Option<Plan> {
        let mut list = Vec::new();
        match self.under_way(flash) {
            UnderWay::Damage => return None,
            UnderWay::Trailers(with_ok) => {
                self.finish_trailers(&mut list, with_ok);
                self.exchange_data(&mut list, 3);
                return Some(Plan { done: Done::Resumed, found: 0, list });
            }
            UnderWay::Marks(c) => {
                self.exchange_data(&mut list, c);
                return Some(Plan { done: Done::Resumed, found: c as u64, list });
            }
            UnderWay::Nothing => {}
        }
        let meaning = self.meaning(flash);
        if meaning == Done::None {
            return Some(Plan { done: Done::None, found: 0, list });
        }
        if image::check(&flash.area(Area::Slot1)[..self.data_bytes()]).is_err() {
            return Some(Plan { done: Done::Cleared, found: 0, list: self.clear_out(flash) });
        }
        reach([Branch::FreshTest, Branch::FreshPermanent, Branch::FreshRevert][meaning as usize - 1]);
        if meaning == Done::Test && self.image_ok(flash, Area::Scratch) != Mark::Unset {
            reach(Branch::StaleScratchOk);
        }
        let with_ok = meaning != Done::Test;
        self.begin_trailers(&mut list, with_ok);
        self.finish_trailers(&mut list, with_ok);
        self.exchange_data(&mut list, 3);
        Some(Plan { done: meaning, found: 0, list })
    }

    /// Carry out the list as far as the allowance goes. The count, and whether an unerased unit ended it.
    pub fn carry_out_list(&self, flash: &mut Flash, list: &[Operation], allowance: u64) -> (u64, bool) {
        let mut count = 0;
        for operation in list {
            if count == allowance {
                break;
            }
            if !self.carry_out(flash, *operation) {
                reach(Branch::UnitNotErased);
                return (count, true);
            }
            count += 1;
        }
        (count, false)
    }

    /// Either start: the plain one is the full one without the check of slot 0.
    pub fn power_up(&self, flash: &mut Flash, allowance: u64, check_slot0: bool) -> Answer {
        let refused = |number| Answer { done: Done::None, found: 0, count: 0, end: End::Refused(number, 0) };
        if !self.takes(flash) {
            return refused(1);
        }
        let Some(Plan { done, found, list }) = self.plan(flash) else { return refused(2) };
        let (count, unerased) = self.carry_out_list(flash, &list, allowance);
        let end = if unerased {
            End::Refused(8, 0)
        } else if count < list.len() as u64 {
            End::Stopped
        } else {
            self.boot(flash, check_slot0)
        };
        let answer = Answer { done, found, count, end };
        reach_end(&answer, list.len() as u64, allowance, check_slot0);
        self.reach_within(&answer);
        answer
    }

    /// Stops where an order of two operations shows.
    fn reach_within(&self, answer: &Answer) {
        let Answer { done, count, end: End::Stopped, .. } = *answer else { return };
        let lines_1_to_3 = 2 + u64::from(done != Done::Test) + 16 / self.unit as u64;
        match done {
            Done::Test | Done::Permanent | Done::Revert if count == lines_1_to_3 => reach(Branch::StoppedBetweenLines3And4),
            Done::Cleared if 0 < count && count < self.data_sectors() as u64 => reach(Branch::StoppedBetweenClearedSectors),
            _ => {}
        }
    }

    /// D.
    fn boot(&self, flash: &Flash, check_slot0: bool) -> End {
        let lent = &flash.area(Area::Slot0)[..self.data_bytes()];
        let sizes = match image::header(lent) {
            Ok(sizes) => sizes,
            Err(cause) => {
                reach(if cause == 1 { Branch::RefusedThreeCause1 } else { Branch::RefusedThreeCause2 });
                return End::Refused(3, 0);
            }
        };
        if check_slot0 {
            if let Err(cause) = image::check(lent) {
                return End::Refused(4, cause);
            }
        }
        End::Boot(sizes.header)
    }
}

fn reach_end(answer: &Answer, length: u64, allowance: u64, check_slot0: bool) {
    use Branch::*;
    let (done, never) = (answer.done as usize, RefusedAfterExchange);
    match answer.end {
        End::Boot(_) => {
            reach([BootNone, BootTest, BootPermanent, BootRevert, BootResumed, BootCleared][done]);
            if check_slot0 {
                reach(CheckedBoot);
            }
        }
        End::Stopped => {
            reach([StoppedTest, StoppedPermanent, StoppedRevert, StoppedResumed, StoppedCleared][done - 1]);
            reach(if answer.count == 0 { StoppedAtNothing } else { StoppedWithin });
            if answer.count + 1 == length {
                reach(StoppedOneBefore);
            }
        }
        End::Refused(3, _) => {
            let after = [RefusedThreeNone, never, never, never, RefusedThreeResumed, RefusedThreeCleared];
            reach(after[done]);
        }
        End::Refused(4, cause) => {
            reach([RefusedFourCause3, RefusedFourCause4, RefusedFourCause5][cause as usize - 3]);
            let after = [RefusedFourNone, never, never, never, RefusedFourResumed, RefusedFourCleared];
            reach(after[done]);
        }
        End::Refused(_, _) => {}
    }
    if answer.end != End::Stopped && length > 0 {
        reach(if allowance == length { ExactAllowance } else { AllowanceToSpare });
    }
}
