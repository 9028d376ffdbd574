//! The sample dumps for the show program, and the expected output of examples/exchange.c.

use std::fs;
use std::path::Path;

use crate::edges::SMALL;
use crate::flash::{Area, Flash, Geometry};
use crate::loader::{Answer, End};
use crate::image::{record_at, Found};
use crate::make::{image, image_with, record};
use crate::random::Random;

fn word(answer: &Answer) -> String {
    format!("{:?}", answer.done).to_lowercase()
}

/// The line of the show program.
pub fn line(answer: &Answer) -> String {
    let end = match answer.end {
        End::Boot(offset) => format!("boot {offset}"),
        End::Refused(number, _) => format!("refused {number}"),
        End::Stopped => unreachable!("4,000 operations are enough for this geometry"),
    };
    format!("{} {} {} {end}", word(answer), answer.found, answer.count)
}

/// Two firmwares; slot 1's is marked for a test.
fn start() -> Flash {
    let mut flash = SMALL.erased();
    let firmware = |version: &str| image(format!("deck scale firmware {version} {}", "code ".repeat(82)).as_bytes());
    let (old, new) = (firmware("1.4.0"), firmware("1.5.0"));
    flash.areas[0][..old.len()].copy_from_slice(&old);
    flash.areas[1][..new.len()].copy_from_slice(&new);
    assert_eq!(SMALL.mark_slot1(&mut flash, false).refusal, 0);
    flash
}

/// Power went while slot 0's sector was copied to slot 1: 39 operations for the trailers, 514 for the first move, 300 of the second.
fn interrupted() -> Flash {
    let mut flash = start();
    let cut = 39 + 514 + 300;
    let operation = SMALL.plan(&flash).unwrap().list[cut];
    SMALL.power_up(&mut flash, cut as u64, false);
    let (area, bytes) = SMALL.harmed(operation);
    Random(5).fill(&mut flash.area_mut(area)[bytes]);
    flash
}

/// The same, and the second mark of sector 1 lost a bit.
fn damaged() -> Flash {
    let mut flash = interrupted();
    flash.areas[0][SMALL.mark_at(1, 1)] &= 0xfd;
    flash
}

/// A bit of the new firmware's body turned over after its digest was taken.
fn rejected() -> Flash {
    let mut flash = start();
    flash.area_mut(Area::Slot1)[60] ^= 0x04;
    flash
}

pub fn write_dumps(folder: &Path) -> std::io::Result<()> {
    for (name, mut flash) in [("interrupted", interrupted()), ("damaged", damaged()), ("rejected", rejected())] {
        fs::write(folder.join(format!("{name}.dump")), flash.areas.concat())?;
        let answer = SMALL.power_up(&mut flash, 4000, false);
        fs::write(folder.join(format!("{name}.expected")), format!("{}\n", line(&answer)))?;
    }
    Ok(())
}

/// The text of the record of type 16 that stands first in such an image, behind a header of 32 bytes and a body of 10.
fn version(slot: &[u8]) -> String {
    let Found::Record { kind: 16, start, size } = record_at(&slot[42..], 0) else { unreachable!("the example's images have a version") };
    String::from_utf8_lossy(&slot[42 + start..][..size]).into_owned()
}

/// What examples/exchange.c prints, worked out by the model.
pub fn print_example() {
    let geometry = Geometry { unit: 4, sector: 2048, sectors: 3 };
    let mut flash = geometry.erased();
    let firmware = |text: &str, version: &str| image_with(32, text.as_bytes(), &[record(16, version.as_bytes().to_vec())], &[]);
    for (slot, bytes) in [(0, firmware("firmware 1", "1.9")), (1, firmware("firmware 2", "2.0.1"))] {
        flash.areas[slot][..bytes.len()].copy_from_slice(&bytes);
    }
    println!("geometry: write unit 4, sector 2048, 3 sectors per slot");
    println!("slot 1: image of {} bytes, check 0", firmware("firmware 2", "2.0.1").len());
    println!("slot 1: version {}", version(&flash.areas[1]));
    let marked = geometry.mark_slot1(&mut flash, false);
    println!("mark for a test: refusal {}, {} operations", marked.refusal, marked.count);
    for start in 1.. {
        let answer = geometry.power_up(&mut flash, 700, false);
        print!("start {start}: {}, {} marks found, {} operations, ", word(&answer), answer.found, answer.count);
        match answer.end {
            End::Stopped => println!("power failed"),
            End::Boot(offset) => {
                println!("boot at {offset}");
                break;
            }
            End::Refused(number, _) => {
                println!("refused {number}");
                break;
            }
        }
    }
    println!("slot 0 runs: firmware {}; slot 1 keeps: firmware {}", flash.areas[0][41] as char, flash.areas[1][41] as char);
    println!("slot 0: version {}", version(&flash.areas[0]));
    let confirmed = geometry.confirm(&mut flash);
    println!("confirm: refusal {}, {} operations", confirmed.refusal, confirmed.count);
    let answer = geometry.power_up(&mut flash, 0, true);
    let End::Boot(offset) = answer.end else { unreachable!("a confirmed image boots") };
    println!("checked start: {}, {} marks found, {} operations, boot at {offset}", word(&answer), answer.found, answer.count);
}
