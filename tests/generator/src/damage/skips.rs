//! Ways to fail question 14.

use super::edit::{block, insert};
use super::Breaker;
use crate::draft::{Draft, DraftBlock};
use crate::random::Random;
use reference::Instruction;

/// Ways to fail question 14.
pub const BREAKERS: [Breaker; 7] = [
    longer_than_the_block,
    longer_than_the_part_around,
    part_around_shortened,
    block_shortened,
    skip_added,
    skip_added_in_a_part,
    skip_added_at_the_end,
];

/// A SKIP of a block, by its place and its n, with the end of the block or of
/// the smallest part that it stands in.
struct Part {
    place: usize,
    n: usize,
    /// The place of the SKIP whose part it stands in, if it stands in one.
    around: Option<usize>,
    /// The place behind the last instruction that it may pass over.
    end: usize,
}

/// The SKIPs of a block that question 14 passes, in order.
fn parts(block: &DraftBlock) -> Vec<Part> {
    let mut parts: Vec<Part> = Vec::new();
    for (place, instruction) in block.instructions.iter().enumerate() {
        let Instruction::Skip { n, .. } = *instruction else {
            continue;
        };
        let mut around = parts.iter().rev();
        let around = around.find(|part| place <= part.place + part.n);
        parts.push(Part {
            place,
            n: n.into(),
            around: around.map(|part| part.place),
            end: around.map_or(block.instructions.len(), |part| part.place + 1 + part.n),
        });
    }
    parts
}

/// Changes a block that has a part that passes, at that part.
fn change_part(
    random: &mut Random,
    draft: &Draft,
    passes: impl Fn(&Part) -> bool,
    change: impl FnOnce(&mut Random, &mut DraftBlock, &Part) -> Option<()>,
) -> Option<Vec<u8>> {
    let mut draft = draft.clone();
    let has_one = |_, block: &DraftBlock| parts(block).iter().any(&passes);
    let (version, number) = block(random, &draft, has_one)?;
    let block = &mut draft.versions[version].blocks[number];
    let mut passing = parts(block);
    passing.retain(&passes);
    let part = passing.swap_remove(random.below(passing.len()));
    change(random, block, &part)?;
    Some(draft.bytes())
}

/// Gives the SKIP at a place another n.
fn set(block: &mut DraftBlock, place: usize, count: usize) {
    if let Instruction::Skip { n, .. } = &mut block.instructions[place] {
        *n = count as u8;
    }
}

/// One more than so many, a little more, or the most that there can be.
fn above(random: &mut Random, count: usize) -> usize {
    let more = count + 1 + random.below(5);
    random.pick(&[count + 1, count + 1, more, 255])
}

fn longer_than_the_block(random: &mut Random, draft: &Draft) -> Option<Vec<u8>> {
    change_part(
        random,
        draft,
        |_| true,
        |random, block, part| {
            let left = block.instructions.len() - part.place - 1;
            set(block, part.place, above(random, left));
            Some(())
        },
    )
}

fn longer_than_the_part_around(random: &mut Random, draft: &Draft) -> Option<Vec<u8>> {
    let nested = |part: &Part| part.around.is_some();
    change_part(random, draft, nested, |random, block, part| {
        let left = part.end - part.place - 1;
        let in_block = block.instructions.len() - part.place - 1;
        let longer = random.between(left as i64 + 1, (in_block as i64).max(left as i64 + 1));
        set(block, part.place, longer as usize);
        Some(())
    })
}

/// Ends the part around a SKIP before that SKIP's own part ends.
fn part_around_shortened(random: &mut Random, draft: &Draft) -> Option<Vec<u8>> {
    let nested = |part: &Part| part.around.is_some() && part.n > 0;
    change_part(random, draft, nested, |random, block, part| {
        let around = part.around?;
        let to_skip = part.place - around;
        set(block, around, to_skip + random.below(part.n));
        Some(())
    })
}

/// Takes the last instruction from a block that ends with a part.
fn block_shortened(random: &mut Random, draft: &Draft) -> Option<Vec<u8>> {
    let mut draft = draft.clone();
    let ends_with_part = |_, block: &DraftBlock| {
        let end = block.instructions.len();
        let ends = |part: &Part| part.n > 0 && part.place + 1 + part.n == end;
        parts(block).iter().any(ends)
    };
    let (version, number) = block(random, &draft, ends_with_part)?;
    let instructions = &mut draft.versions[version].blocks[number].instructions;
    // A PROM that is gone leaves its block without a name, which is 7.
    if matches!(instructions.pop()?, Instruction::Prom { .. }) {
        return None;
    }
    Some(draft.bytes())
}

fn skip_added(random: &mut Random, draft: &Draft) -> Option<Vec<u8>> {
    let mut draft = draft.clone();
    let (version, number) = block(random, &draft, |_, _| true)?;
    let block = &mut draft.versions[version].blocks[number];
    let length = block.instructions.len();
    let place = random.below(length + 1);
    let n = above(random, length - place) as u8;
    insert(block, place, vec![Instruction::Skip { a: 0, n }])?;
    Some(draft.bytes())
}

/// Puts a SKIP into a part, which gets one longer, that goes past its end.
fn skip_added_in_a_part(random: &mut Random, draft: &Draft) -> Option<Vec<u8>> {
    change_part(
        random,
        draft,
        |_| true,
        |random, block, part| {
            let inside = random.below(part.n + 1);
            let n = above(random, part.n - inside) as u8;
            let place = part.place + 1 + inside;
            insert(block, place, vec![Instruction::Skip { a: 0, n }])?;
            set(block, part.place, part.n + 1);
            Some(())
        },
    )
}

fn skip_added_at_the_end(random: &mut Random, draft: &Draft) -> Option<Vec<u8>> {
    let mut draft = draft.clone();
    let (version, number) = block(random, &draft, |_, _| true)?;
    let block = &mut draft.versions[version].blocks[number];
    let n = random.pick(&[1, 1, 2, 48, 255]);
    let end = block.instructions.len();
    insert(block, end, vec![Instruction::Skip { a: 0, n }])?;
    Some(draft.bytes())
}
