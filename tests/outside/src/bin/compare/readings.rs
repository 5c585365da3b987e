//! One copy read alone, and discovery worked out from what the two readings say.

use outside::ffi::Library;
use outside::interface::{CopyAnswer, FoundAnswer, Interface, Refused};
use outside::lent::Lent;
use outside::model::layout::{AREA_OFFSET, BLOCK_OFFSET, COPY, SECTOR};

use crate::run::Run;

/// Both copies in slices of any sizes, compared with the independent implementation; then together.
pub fn readings(run: &mut Run, front: &Lent<u8>, back: &Lent<u8>) {
    let read = [front, back].map(|copy| {
        let outcome = run.ask("copy_read", &[copy], |api| api.copy_read(copy.part()));
        let right = copy.part().len() == COPY;
        run.require("copy_read", right == (outcome.number() != 1), "1 for the right size, or another number");
        outcome.answer
    });
    let copies = [front.part(), back.part()];
    for (copy, read) in copies.into_iter().zip(&read) {
        one(run, copy, read);
    }
    let answer = Library.discover(copies[0], copies[1]);
    let expected = discovery(copies, &read)
        .unwrap_or_else(|number| FoundAnswer { refusal: Refused::numbered(number), ..FoundAnswer::default() });
    run.require("copy_read", answer == expected, "discovery answers something else than the two readings give");
}

/// The area of the present record.
fn present(copy: &CopyAnswer) -> Option<usize> {
    usize::from(copy.present).checked_sub(1)
}

/// The block is read as it is alone, and the present record is the whole area with the later time.
fn one(run: &mut Run, copy: &[u8], read: &CopyAnswer) {
    if read.refusal.number == 1 {
        run.require("copy_read", copy.len() != COPY, "1 for a copy of the right size");
        run.reached(if copy.len() < COPY { "copy_read, a short slice" } else { "copy_read, a long slice" });
        return;
    }
    let alone = Library.block_read(&copy[BLOCK_OFFSET..BLOCK_OFFSET + SECTOR]);
    let same = alone.refusal == read.refusal && alone.block == read.block;
    run.require("copy_read", same, "differs from reading the block alone");
    if read.refusal.number != 0 {
        return;
    }
    let whole = [read.a_whole, read.b_whole];
    let later = usize::from(read.block.b.time() > read.block.a.time());
    let expected = [later, 1 - later].into_iter().find(|&area| whole[area]);
    run.require("copy_read", present(read) == expected, "the present record is not the whole area with the later time");
    run.reached(match whole {
        [true, true] => "copy_read, both areas whole",
        [true, false] => "copy_read, area a alone whole",
        [false, true] => "copy_read, area b alone whole",
        [false, false] => "copy_read, no area whole",
    });
    if expected.is_some_and(|area| area != later) {
        run.reached("copy_read, the later entry is not whole");
    }
}

/// Discovery's answer, by the two readings alone.
fn discovery(copies: [&[u8]; 2], read: &[CopyAnswer; 2]) -> Result<FoundAnswer, u8> {
    if copies.iter().any(|copy| copy.len() != COPY) {
        return Err(1);
    }
    let accepted = read.map(|copy| copy.refusal.number == 0);
    let area = [0, 1].map(|side| present(&read[side]).filter(|_| accepted[side]));
    let found = |side: usize, other: u8| {
        let area = area[side].ok_or(12)?;
        let block = read[side].block;
        let entry = block.entry(area);
        Ok(FoundAnswer {
            refusal: Refused::default(),
            side: side as u8,
            area: area as u8,
            other,
            bytes: entry.bytes,
            time: entry.time(),
            block,
        })
    };
    let identity = |side: usize| {
        let block = &read[side].block;
        (block.device, block.pool, block.blockdev)
    };
    match accepted {
        [true, true] if identity(0) != identity(1) => return Err(11),
        [true, true] => {}
        [true, false] => return found(0, read[1].refusal.number),
        [false, true] => return found(1, read[0].refusal.number),
        [false, false] => return Err(10),
    }
    let [Some(a), Some(b)] = area else {
        return found(usize::from(area[0].is_none()), 0);
    };
    let (x, y) = (read[0].block.entry(a), read[1].block.entry(b));
    let record = |side: usize, area: usize, bytes: u32| &copies[side][AREA_OFFSET[area]..][..bytes as usize];
    if x.time() == y.time() && record(0, a, x.bytes) != record(1, b, y.bytes) {
        return Err(13);
    }
    found(usize::from(y.time() > x.time()), 0)
}
