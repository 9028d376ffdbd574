//! The edges of document 01, asked of the model before it is trusted. Each is an assertion; the number of them is the result.

use crate::flash::{Area, Flash, Geometry};
use crate::image::check;
use crate::loader::{Answer, Done, End, UnderWay};
use crate::make::{front, image, image_with, record, records_area};
use crate::sha256::digest;
use crate::trailer::{magic_bytes, Magic, Mark};

pub const SMALL: Geometry = Geometry { unit: 1, sector: 512, sectors: 2 };

struct Tally(u64);

impl Tally {
    fn same<T: PartialEq + std::fmt::Debug>(&mut self, what: &str, got: T, wanted: T) {
        assert!(got == wanted, "the model itself is wrong: {what}: got {got:?}, wanted {wanted:?}");
        self.0 += 1;
    }
}

fn answer(done: Done, found: u64, count: u64, end: End) -> Answer {
    Answer { done, found, count, end }
}

fn put(flash: &mut Flash, area: Area, at: usize, bytes: &[u8]) {
    flash.area_mut(area)[at..at + bytes.len()].copy_from_slice(bytes);
}

/// Slot 0 with one image and slot 1 with another, nothing marked.
fn two_images(g: Geometry) -> Flash {
    let mut flash = g.erased();
    put(&mut flash, Area::Slot0, 0, &image(&[0x10; 90]));
    put(&mut flash, Area::Slot1, 0, &image_with(48, &[0x21; 70], &[], &[]));
    flash
}

fn marked(g: Geometry, permanent: bool) -> Flash {
    let mut flash = two_images(g);
    assert_eq!(g.mark_slot1(&mut flash, permanent).refusal, 0);
    flash
}

/// A test exchange that is over: slot 0 is ready to be confirmed or reverted.
fn on_trial(g: Geometry) -> Flash {
    let mut flash = marked(g, false);
    g.power_up(&mut flash, u64::MAX, false);
    flash
}

pub fn run() -> u64 {
    let mut tally = Tally(0);
    digests(&mut tally);
    geometries(&mut tally);
    places(&mut tally);
    images(&mut tally);
    counts(&mut tally);
    decisions(&mut tally);
    damage(&mut tally);
    marking(&mut tally);
    tally.0
}

fn digests(tally: &mut Tally) {
    let hex = |message: &[u8]| digest(message).iter().map(|byte| format!("{byte:02x}")).collect::<String>();
    let two_blocks = "abcdbcdecdefdefgefghfghighijhijkijkljklmklmnlmnomnopnopq";
    let vectors = [
        ("", "e3b0c44298fc1c149afbf4c8996fb92427ae41e4649b934ca495991b7852b855"),
        ("abc", "ba7816bf8f01cfea414140de5dae2223b00361a396177a9cb410ff61f20015ad"),
        (two_blocks, "248d6a61d20638b8e5c026930c3e6039a33ce45964ff2167f6ecedd419db06c1"),
    ];
    for (message, wanted) in vectors {
        tally.same("a vector of FIPS 180-4", hex(message.as_bytes()).as_str(), wanted);
    }
    let million = "cdc76e5c9914fb9281a1c7e284d73e67f1809a48a497200e046d39ccc7112cd0";
    tally.same("a million a", hex(&vec![b'a'; 1_000_000]).as_str(), million);
}

fn geometries(tally: &mut Tally) {
    let cases = [
        (1, 416, 2, true), (1, 415, 2, false), (2, 800, 2, true), (2, 798, 2, false), (4, 1568, 2, true), (4, 1564, 2, false),
        (8, 3104, 2, true), (8, 3096, 2, false), (3, 3104, 2, false), (0, 3104, 2, false), (16, 8192, 2, false), (2, 801, 2, false),
        (8, 65_536, 2, true), (8, 65_544, 2, false), (1, 65_537, 2, false), (1, 416, 128, true), (1, 416, 129, false), (1, 416, 1, false),
    ];
    for (unit, sector, sectors, taken) in cases {
        let g = Geometry { unit, sector, sectors };
        let mut flash = Flash { areas: [vec![0xff; sector * sectors], vec![0xff; sector * sectors], vec![0xff; 2 * sector]] };
        let wanted = End::Refused(if taken { 3 } else { 1 }, 0);
        tally.same(&format!("{g:?}"), g.power_up(&mut flash, 9, false), answer(Done::None, 0, 0, wanted));
    }
    for area in 0..3 {
        for change in [-1i64, 1, -512, 512] {
            let mut flash = marked(SMALL, false);
            let length = flash.areas[area].len() as i64 + change;
            flash.areas[area].resize(length as usize, 0xff);
            let before = flash.clone();
            tally.same("length", SMALL.power_up(&mut flash, 9, true), answer(Done::None, 0, 0, End::Refused(1, 0)));
            tally.same("marking", SMALL.mark_slot1(&mut flash, true).refusal, 1);
            tally.same("confirming", SMALL.confirm(&mut flash).refusal, 1);
            tally.same("as before", flash == before, true);
        }
    }
}

fn places(tally: &mut Tally) {
    let g = SMALL;
    tally.same("marks", g.marks_at(Area::Slot0), 608);
    tally.same("mark 0 of sector 1", g.mark_at(1, 0), 986);
    tally.same("mark 2 of sector 0", g.mark_at(0, 2), 991);
    tally.same("copy done", g.copy_done_at(Area::Slot0), 992);
    tally.same("image ok", g.image_ok_at(Area::Slot0), 1000);
    tally.same("magic", g.magic_at(Area::Slot0), 1008);
    tally.same("scratch magic", g.magic_at(Area::Scratch), 1008);
    tally.same("magic bytes", magic_bytes()[..5].to_vec(), vec![0x77, 0xc2, 0x95, 0xf3, 0x60]);
    let wide = Geometry { unit: 4, sector: 1568, sectors: 2 };
    let mut flash = wide.erased();
    let at = wide.image_ok_at(Area::Slot0);
    let units = [
        ([0xff, 0xff, 0xff, 0xff], Mark::Unset), ([1, 0xff, 0xff, 0xff], Mark::Value(1)), ([0, 0xff, 0xff, 0xff], Mark::Value(0)),
        ([0xff, 1, 0xff, 0xff], Mark::Bad), ([1, 0xff, 0xff, 0xfe], Mark::Bad), ([1, 1, 1, 1], Mark::Bad),
    ];
    for (unit, wanted) in units {
        put(&mut flash, Area::Slot0, at, &unit);
        flash.areas[0][at + 4] = 0x33;
        tally.same("mark", wide.image_ok(&flash, Area::Slot0), wanted);
    }
    tally.same("magic unset", wide.magic(&flash, Area::Slot0), Magic::Unset);
}

fn images(tally: &mut Tally) {
    let rejected = |cause| Err::<(), u64>(cause);
    let right = image(&[7; 40]);
    tally.same("right", check(&right), Ok(()));
    tally.same("31 bytes", check(&right[..31]), rejected(2));
    tally.same("no byte", check(&[]), rejected(2));
    tally.same("32 bytes, magic wrong", check(&[0; 32]), rejected(1));
    tally.same("31 bytes, magic wrong", check(&[0; 31]), rejected(2));
    tally.same("one byte less", check(&right[..right.len() - 1]), rejected(2));
    tally.same("with more behind", check(&[&right[..], &[9; 5]].concat()), Ok(()));
    let mut short_header = right.clone();
    short_header[8] = 31;
    tally.same("header size 31", check(&short_header), rejected(2));
    let mut wraps = right.clone();
    wraps[12..16].copy_from_slice(&(u32::MAX - 60).to_le_bytes());
    tally.same("sum over 32 bits", check(&wraps), rejected(2));
    let with = |area: Vec<u8>| [front(32, &[], area.len()), area].concat();
    let own = |size: usize| record(1, digest(&front(32, &[], size)).to_vec());
    tally.same("empty area", check(&with(vec![])), rejected(4));
    tally.same("36 bytes, right", check(&with(records_area(&[own(36)]))), Ok(()));
    tally.same("36 bytes, wrong digest", check(&with(records_area(&[record(1, vec![5; 32])]))), rejected(5));
    for extra in 1..=3 {
        tally.same("left over", check(&with([records_area(&[own(36 + extra)]), vec![0; extra]].concat())), rejected(3));
    }
    tally.same("length 31", check(&with(records_area(&[record(1, vec![5; 31])]))), rejected(4));
    tally.same("length 33", check(&with(records_area(&[record(1, vec![5; 33])]))), rejected(4));
    tally.same("empty record of type 2 before", check(&with(records_area(&[record(2, vec![]), own(40)]))), Ok(()));
    tally.same("type 2 alone", check(&with(records_area(&[record(2, vec![5; 32])]))), rejected(4));
    tally.same("two of type 1", check(&with(records_area(&[own(72), own(72)]))), rejected(4));
    tally.same("one right, one short", check(&with(records_area(&[own(41), record(1, vec![5])]))), rejected(4));
    tally.same("cause 3 before 4", check(&with([records_area(&[record(1, vec![5; 31])]), vec![0]].concat())), rejected(3));
    let mut extension = image_with(40, &[7; 9], &[], &[]);
    tally.same("header of 40", check(&extension), Ok(()));
    extension[35] ^= 1;
    tally.same("its extension is covered", check(&extension), rejected(5));
    let room = SMALL.data_bytes();
    let fills = image(&vec![3; room - 32 - 36]);
    tally.same("sizes sum to m s", (fills.len(), check(&fills)), (room, Ok(())));
    tally.same("one more", check(&image(&vec![3; room - 32 - 36 + 1])[..room]), rejected(2));
}

fn counts(tally: &mut Tally) {
    let length = |g: Geometry, permanent| g.plan(&marked(g, permanent)).unwrap().list.len();
    tally.same("test", length(SMALL, false), 1582);
    tally.same("permanent", length(SMALL, true), 1584);
    tally.same("w 8", length(Geometry { unit: 8, sector: 4096, sectors: 3 }, false), 3096);
    tally.same("revert", SMALL.plan(&on_trial(SMALL)).unwrap().list.len(), 1584);
    let mut flash = marked(SMALL, false);
    let mut whole = flash.clone();
    tally.same("1,581", SMALL.power_up(&mut flash, 1581, false), answer(Done::Test, 0, 1581, End::Stopped));
    tally.same("1,582", SMALL.power_up(&mut whole, 1582, true), answer(Done::Test, 0, 1582, End::Boot(48)));
    tally.same("copy done", flash.areas[0][992], 0xff);
    flash.areas[0][992] = 1;
    tally.same("only copy done missing", flash == whole, true);
    let mut due = marked(SMALL, true);
    let before = due.clone();
    tally.same("allowance 0, due", SMALL.power_up(&mut due, 0, false), answer(Done::Permanent, 0, 0, End::Stopped));
    tally.same("nothing written", due == before, true);
    let mut idle = two_images(SMALL);
    tally.same("allowance 0, nothing due", SMALL.power_up(&mut idle, 0, false), answer(Done::None, 0, 0, End::Boot(32)));
    tally.same("all 0xff", SMALL.power_up(&mut SMALL.erased(), 4000, false), answer(Done::None, 0, 0, End::Refused(3, 0)));
    for c in 3..=6 {
        // 39 operations for the trailers, 514 for each move
        let mut cut = marked(SMALL, false);
        SMALL.power_up(&mut cut, 39 + 514 * (c - 3), false);
        let left = 514 * (6 - c) + 1;
        tally.same("resumed", SMALL.power_up(&mut cut, 4000, true), answer(Done::Resumed, c, left, End::Boot(48)));
        tally.same("as never cut", cut == whole, true);
    }
    let mut cut = marked(SMALL, false);
    SMALL.power_up(&mut cut, 18, false);
    tally.same("A", SMALL.power_up(&mut cut, 4000, true), answer(Done::Resumed, 0, 1582 - 17, End::Boot(48)));
    tally.same("A, as never cut", cut == whole, true);
}

fn decisions(tally: &mut Tally) {
    let g = SMALL;
    let mut trial = on_trial(g);
    let mut half = trial.clone();
    put(&mut half, Area::Slot1, 1008, &magic_bytes()[..2]);
    tally.same("III with two bytes of magic", g.power_up(&mut half, 4000, false), answer(Done::None, 0, 0, End::Boot(48)));
    let mut both = trial.clone();
    tally.same("marked again", g.mark_slot1(&mut both, false).count, 16);
    tally.same("I and III", g.power_up(&mut both, 4000, false), answer(Done::Test, 0, 1582, End::Boot(32)));
    let mut kept = trial.clone();
    tally.same("confirming", (g.confirm(&mut kept).refusal, kept.areas[0][1000]), (0, 1));
    tally.same("confirmed stays", g.power_up(&mut kept, 4000, false), answer(Done::None, 0, 0, End::Boot(48)));
    tally.same("revert", g.power_up(&mut trial, 4000, false), answer(Done::Revert, 0, 1584, End::Boot(32)));
    tally.same("reverted stays", g.power_up(&mut trial, 4000, false), answer(Done::None, 0, 0, End::Boot(32)));
    let mut odd = marked(g, false);
    odd.areas[1][1000] = 2;
    tally.same("slot 1 image ok 02", g.power_up(&mut odd, 4000, false), answer(Done::None, 0, 0, End::Boot(32)));
    for (ok, count) in [(0xff, 3), (1, 2), (2, 2)] {
        let mut rejected = marked(g, false);
        rejected.areas[0][1000] = ok;
        rejected.areas[1][60] ^= 1;
        let before = rejected.clone();
        tally.same("cleared", g.power_up(&mut rejected, 4000, false), answer(Done::Cleared, 0, count, End::Boot(32)));
        tally.same("slot 1 empty", rejected.areas[1].iter().all(|byte| *byte == 0xff), true);
        tally.same("slot 0 image ok", rejected.areas[0][1000], if ok == 0xff { 1 } else { ok });
        tally.same("scratch", rejected.areas[2] == before.areas[2], true);
    }
    let mut stale = marked(g, false);
    stale.areas[2][1000] = 1;
    tally.same("stale scratch image ok", g.power_up(&mut stale, 4000, false).done, Done::Test);
    tally.same("is not taken over", stale.areas[0][1000], 0xff);
    let mut no_header = g.erased();
    put(&mut no_header, Area::Slot1, 1008, &magic_bytes());
    tally.same("cleared, then 3", g.power_up(&mut no_header, 4000, false), answer(Done::Cleared, 0, 3, End::Refused(3, 0)));
    let mut wrong_digest = two_images(g);
    wrong_digest.areas[0][60] ^= 1;
    tally.same("plain", g.power_up(&mut wrong_digest, 0, false).end, End::Boot(32));
    tally.same("checked", g.power_up(&mut wrong_digest, 0, true).end, End::Refused(4, 5));
}

fn damage(tally: &mut Tally) {
    let g = Geometry { unit: 1, sector: 416, sectors: 3 };
    let first = g.mark_at(2, 0);
    let runs: [(&[u8], UnderWay); 15] = [
        (&[], UnderWay::Nothing), (&[1], UnderWay::Damage), (&[1, 2], UnderWay::Damage), (&[1, 2, 3], UnderWay::Marks(3)),
        (&[1, 2, 3, 1], UnderWay::Marks(4)), (&[1, 2, 3, 1, 2], UnderWay::Marks(5)), (&[1, 2, 3, 1, 2, 3], UnderWay::Marks(6)),
        (&[1, 2, 3, 1, 2, 3, 1, 2, 3], UnderWay::Marks(9)), (&[2, 1, 3], UnderWay::Damage), (&[1, 2, 3, 2], UnderWay::Damage),
        (&[0xff, 2], UnderWay::Damage), (&[1, 2, 3, 0xff, 2], UnderWay::Damage), (&[1, 2, 3, 4], UnderWay::Damage),
        (&[1, 0xff, 3], UnderWay::Damage), (&[0xff, 0xff, 0xff, 0xff, 0xff, 0xff, 0xff, 0xff, 3], UnderWay::Damage),
    ];
    for (run, wanted) in runs {
        let mut flash = two_images(g);
        put(&mut flash, Area::Slot0, g.magic_at(Area::Slot0), &magic_bytes());
        put(&mut flash, Area::Slot0, first, run);
        flash.areas[0][first - 1] = 0x44;
        tally.same(&format!("marks {run:?}"), g.under_way(&flash), wanted);
        let before = flash.clone();
        if wanted == UnderWay::Damage {
            tally.same("2", g.power_up(&mut flash, 9, true), answer(Done::None, 0, 0, End::Refused(2, 0)));
            tally.same("as before", flash == before, true);
        }
        for copy_done in [1, 2, 0] {
            flash.set(&before);
            flash.areas[0][g.copy_done_at(Area::Slot0)] = copy_done;
            tally.same("copy done set: B not entered", g.under_way(&flash), UnderWay::Nothing);
        }
    }
    for (ok, wanted) in [(0xff, UnderWay::Trailers(false)), (1, UnderWay::Trailers(true)), (2, UnderWay::Damage), (0, UnderWay::Damage)] {
        let mut flash = on_trial(g);
        put(&mut flash, Area::Scratch, g.magic_at(Area::Scratch), &magic_bytes());
        flash.areas[2][g.image_ok_at(Area::Scratch)] = ok;
        tally.same("A before slot 0's copy done", g.under_way(&flash), wanted);
    }
}

fn marking(tally: &mut Tally) {
    for (unit, sector) in [(1, 416), (2, 800), (4, 1568), (8, 3104)] {
        let g = Geometry { unit, sector, sectors: 2 };
        let units = 16 / unit as u64;
        let mut flash = two_images(g);
        tally.same("test", g.mark_slot1(&mut flash, false).count, units);
        tally.same("again", g.mark_slot1(&mut flash, false).refusal, 5);
        let mut flash = two_images(g);
        tally.same("permanent", g.mark_slot1(&mut flash, true).count, units + 1);
        tally.same("nothing to confirm", g.confirm(&mut flash).refusal, 7);
        g.power_up(&mut flash, 40, false);
        tally.same("under way", (g.mark_slot1(&mut flash, true).refusal, g.confirm(&mut flash).refusal), (6, 6));
        let at = g.mark_at(1, 1);
        let mut under_b = marked(g, false);
        g.power_up(&mut under_b, 10 + 32 / unit as u64, false);
        tally.same("B", g.mark_slot1(&mut under_b, true).refusal, 6);
        under_b.areas[0][at] = 0;
        tally.same("damage", (g.mark_slot1(&mut under_b, true).refusal, g.confirm(&mut under_b).refusal), (2, 2));
        let mut trial = on_trial(g);
        tally.same("confirm", (g.confirm(&mut trial).refusal, g.confirm(&mut trial).refusal), (0, 7));
    }
}
