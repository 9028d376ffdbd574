//! Document 01, "Image": the check as a function of the bytes lent, with its causes in their order.

use crate::reached::{reach, Branch};
use crate::sha256::digest;

pub const HEADER_MAGIC: u32 = 0x96f3_b83c;

fn number(bytes: &[u8], at: usize, length: usize) -> u64 {
    bytes[at..at + length].iter().rev().fold(0, |sum, byte| sum * 256 + *byte as u64)
}

pub struct Header {
    pub records: u64,
    pub header: u64,
    pub body: u64,
}

/// The sizes, or cause 1 or 2.
pub fn header(lent: &[u8]) -> Result<Header, u64> {
    if lent.len() < 32 {
        reach(Branch::TooFewBytes);
        return Err(2);
    }
    if number(lent, 0, 4) != HEADER_MAGIC as u64 {
        reach(Branch::HeaderMagic);
        return Err(1);
    }
    let found = Header { records: number(lent, 4, 2), header: number(lent, 8, 2), body: number(lent, 12, 4) };
    if found.header < 32 {
        reach(Branch::HeaderSizeUnder);
        return Err(2);
    }
    let (sum, room) = (found.header + found.body + found.records, lent.len() as u64);
    if sum > room {
        reach(Branch::SumAbove);
        if sum == room + 1 {
            reach(Branch::SumAboveByOne);
        }
        if sum > u32::MAX as u64 && sum as u32 as u64 <= room {
            reach(Branch::SumOver32Bits);
        }
        return Err(2);
    }
    reach(if found.header == 32 { Branch::HeaderSizeLeast } else { Branch::HeaderExtended });
    if sum == room {
        reach(Branch::SumExact);
    }
    if found.body == 0 {
        reach(Branch::BodyEmpty);
    }
    Ok(found)
}

/// What stands at a place of the trailing records.
#[derive(Clone, Copy, PartialEq, Debug)]
pub enum Found {
    End,
    Record { kind: u8, start: usize, size: usize },
    Stump,
}

pub fn record_at(area: &[u8], at: usize) -> Found {
    if at >= area.len() {
        reach(if at == area.len() { Branch::RecordsEnd } else { Branch::BeyondRecords });
        return Found::End;
    }
    let left = area.len() - at;
    if left < 4 {
        reach([Branch::LeftOver1, Branch::LeftOver2, Branch::LeftOver3][left - 1]);
        return Found::Stump;
    }
    let size = number(area, at + 2, 2) as usize;
    if size > left - 4 {
        reach(Branch::RecordTooLong);
        return Found::Stump;
    }
    if area[at + 1] != 0 {
        reach(Branch::PadByteSet);
    }
    Found::Record { kind: area[at], start: at + 4, size }
}

/// The records as type and bytes, or cause 3.
fn records(area: &[u8]) -> Result<Vec<(u8, &[u8])>, u64> {
    let mut found = Vec::new();
    let mut at = 0;
    loop {
        match record_at(area, at) {
            Found::End => return Ok(found),
            Found::Stump => return Err(3),
            Found::Record { kind, start, size } => {
                found.push((kind, &area[start..start + size]));
                at = start + size;
            }
        }
    }
}

/// Accepted, or the cause from 1 to 5.
pub fn check(lent: &[u8]) -> Result<(), u64> {
    let sizes = header(lent)?;
    let covered = (sizes.header + sizes.body) as usize;
    let area = &lent[covered..covered + sizes.records as usize];
    let found = records(area)?;
    let digests: Vec<&[u8]> = found.iter().filter(|(kind, _)| *kind == 1).map(|(_, bytes)| *bytes).collect();
    if digests.len() != 1 {
        reach(if area.is_empty() {
            Branch::EmptyArea
        } else if digests.is_empty() {
            Branch::NoDigest
        } else {
            Branch::TwoDigests
        });
        return Err(4);
    }
    if digests[0].len() != 32 {
        reach(Branch::DigestLength);
        return Err(4);
    }
    if found.len() > 1 {
        reach(Branch::OtherRecords);
    }
    if found.iter().any(|(_, bytes)| bytes.is_empty()) {
        reach(Branch::EmptyRecord);
    }
    if digest(&lent[..covered]) != digests[0] {
        reach(Branch::DigestDiffers);
        return Err(5);
    }
    reach(Branch::Accepted);
    Ok(())
}
