//! Which branches of document 01 a comparison went through. A comparison that never reached one of them proves nothing about it, so
//! the program fails then. What cannot come (refusal 8) is counted too, and must stay at zero.

use std::sync::atomic::{AtomicU64, Ordering};

macro_rules! branches {
    ($($name:ident),* $(,)?) => {
        #[derive(Clone, Copy, Debug)]
        pub enum Branch { $($name),* }
        const NAMES: &[&str] = &[$(stringify!($name)),*];
        static COUNTS: [AtomicU64; NAMES.len()] = [const { AtomicU64::new(0) }; NAMES.len()];
    };
}

branches! {
    // the flash
    UnitWrong, SectorNoMultiple, SectorTooSmall, SectorTooLarge, SectorsTooFew, SectorsTooMany,
    Slot0Short, Slot0Long, Slot1Short, Slot1Long, ScratchShort, ScratchLong, GeometryTaken,
    SectorSmallest, SectorLargest, SectorsLeast, SectorsMost, Unit1, Unit2, Unit4, Unit8,
    // A
    ScratchGood, ScratchUnset, ScratchBad, ATest, APermanent, AOtherValue, ABad,
    // B
    BSlot0Unset, BSlot0Bad, BCopyDone01, BCopyDoneOther, BCopyDoneBad, BNone, BJunkUnread,
    BOne, BTwo, BThree, BInsideTriple, BWholeTriple, BAll, BGap, BGapFits, BUnsetFront, BOutOfTurn, BOtherValue, BBadMark,
    // C
    StateI, StateII, StateIII, StateIWhereIIIIsReady, FourOkOther, FourOkBad, FourHalfMagic, FourConfirmed, FourSlot0NotGood,
    FourCopyDoneOther, FourOnlyMagic0Bad,
    // the image check
    Accepted, TooFewBytes, HeaderMagic, HeaderSizeUnder, HeaderSizeLeast, HeaderExtended, SumAbove, SumAboveByOne, SumExact, SumOver32Bits,
    LeftOver1, LeftOver2, LeftOver3, RecordTooLong, EmptyArea, NoDigest, TwoDigests, DigestLength, OtherRecords, EmptyRecord, PadByteSet,
    DigestDiffers, BodyEmpty, RecordsEnd, BeyondRecords,
    // the lists
    FreshTest, FreshPermanent, FreshRevert, ClearOkWritten, ClearOkLeft, StaleScratchOk,
    // the ends
    StoppedAtNothing, StoppedWithin, StoppedOneBefore, ExactAllowance, AllowanceToSpare,
    BootNone, BootTest, BootPermanent, BootRevert, BootResumed, BootCleared,
    StoppedTest, StoppedPermanent, StoppedRevert, StoppedResumed, StoppedCleared, StoppedBetweenLines3And4, StoppedBetweenClearedSectors,
    RefusedThreeNone, RefusedThreeResumed, RefusedThreeCleared, RefusedThreeCause1, RefusedThreeCause2,
    RefusedFourCause3, RefusedFourCause4, RefusedFourCause5, RefusedFourNone, RefusedFourResumed, RefusedFourCleared, CheckedBoot,
    // marking and confirming
    MarkGeometry, MarkDamage, MarkUnderA, MarkUnderB, MarkOkSet, MarkMagicSet, MarkedTest, MarkedPermanent,
    ConfirmGeometry, ConfirmDamage, ConfirmUnderA, ConfirmUnderB, ConfirmMagic, ConfirmOnlyMagicBad, ConfirmCopyDone, ConfirmOk, Confirmed,
    // cannot come
    UnitNotErased, RefusedAfterExchange,
}

const NEVER: [Branch; 2] = [Branch::UnitNotErased, Branch::RefusedAfterExchange];

pub fn reach(branch: Branch) {
    COUNTS[branch as usize].fetch_add(1, Ordering::Relaxed);
}

/// Forget what the edges reached: the comparison has to reach everything itself.
pub fn clear() {
    COUNTS.iter().for_each(|count| count.store(0, Ordering::Relaxed));
}

/// The number of branches that can come, or what is wrong with the counts.
pub fn verdict() -> Result<usize, String> {
    let mut wrong = Vec::new();
    for (index, name) in NAMES.iter().enumerate() {
        let impossible = NEVER.iter().any(|branch| *branch as usize == index);
        let count = COUNTS[index].load(Ordering::Relaxed);
        if impossible && count > 0 {
            wrong.push(format!("{name} came {count} times and cannot"));
        } else if !impossible && count == 0 {
            wrong.push(format!("{name} was never reached"));
        }
    }
    if wrong.is_empty() { Ok(NAMES.len() - NEVER.len()) } else { Err(wrong.join("; ")) }
}

pub fn print() {
    for (index, name) in NAMES.iter().enumerate() {
        println!("{:>10} {name}", COUNTS[index].load(Ordering::Relaxed));
    }
}
