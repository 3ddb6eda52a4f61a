//! Blocks that are to be turned away at the last place or entry they have.
//! Whether they are is asked of the ledger, as in [`super::super::spoil`].

use crate::engine::ledger::MOST_BLOCKS;
use crate::engine::{Block, Logs, Sheet};
use crate::generate::random::Random;

/// Faulty neighbours of a block that is to be accepted: two to six of them, or
/// a repetition at each of its places.
pub fn of(random: &mut Random, sheet: &Sheet, logs: &Logs, block: &Block) -> Vec<Block> {
    let last = block.citations.len().saturating_sub(1);
    if random.chance(20) {
        let earlier = |place: usize| if place % 2 == 0 { 0 } else { place - 1 };
        return (1..=last).map(|place| repeating(block, place, earlier(place))).collect();
    }
    let mut faulty = cited(random, sheet, logs, block);
    faulty.extend(cut(sheet, logs, block));
    faulty.extend(two(random, sheet, block));
    (0..random.within(2..=6)).map(|_| faulty[random.place(faulty.len())].clone()).collect()
}

/// 13, 14 and 15, mostly at the last place.
fn cited(random: &mut Random, sheet: &Sheet, logs: &Logs, block: &Block) -> Vec<Block> {
    let own = usize::from(block.instance);
    let last = block.citations.len().saturating_sub(1);
    let (later, earlier) = (random.place(last + 1), random.place(last + 1));
    let mut faulty = vec![
        repeating(block, last, last.saturating_sub(1)),
        repeating(block, last, last.saturating_sub(1)),
        repeating(block, last, 0),
        repeating(block, later.max(earlier), later.min(earlier)),
    ];
    let before: Vec<u16> = logs.of(own).iter().flat_map(|b| b.citations.clone()).collect();
    let elsewhere = |number: &u16| sheet.part(usize::from(*number), own).is_empty();
    let elsewhere: Vec<u16> = (0..sheet.head.t).filter(elsewhere).collect();
    let unknown = random.pick(&[sheet.head.t, 1_024, 65_535]);
    for list in [&before[..], &elsewhere, &[unknown]] {
        if !list.is_empty() {
            let number = random.pick(list);
            let places = [last, last, random.place(last + 1)];
            faulty.extend(places.map(|place| with(block, place, number)));
        }
    }
    faulty
}

/// 11 and 12 at the last entry, 8 at the first instance that is not there.
fn cut(sheet: &Sheet, logs: &Logs, block: &Block) -> Vec<Block> {
    let entry = sheet.instances() - 1;
    let length = logs.of(entry).len() as u16;
    let mut faulty = vec![block.clone(), block.clone(), block.clone()];
    faulty[0].cut[entry] = length + 1;
    faulty[1].cut[entry] = length.saturating_sub(1);
    faulty[2].instance = sheet.head.m;
    let before = logs.of(block.instance.into()).last().map_or(0, |before| before.cut[entry]);
    if before > 0 {
        faulty.push(block.clone());
        faulty[3].cut[entry] = before - 1;
    }
    faulty
}

/// Two faults, of which the first place counts.
fn two(random: &mut Random, sheet: &Sheet, block: &Block) -> Option<Block> {
    let last = block.citations.len().checked_sub(1)?;
    let place = random.place(last).max(1);
    (place < last).then(|| with(&repeating(block, place, place - 1), last, sheet.head.t))
}

/// A block whose citation at a place is that of an earlier place.
fn repeating(block: &Block, place: usize, earlier: usize) -> Block {
    match block.citations.get(earlier) {
        Some(number) => with(block, place, *number),
        None => block.clone(),
    }
}

/// A block with another citation at a place; at 0 if it has none.
fn with(block: &Block, place: usize, number: u16) -> Block {
    let mut block = block.clone();
    match block.citations.get_mut(place) {
        Some(citation) => *citation = number,
        None => block.citations.push(number),
    }
    block
}

/// Block 129 of an instance that has 128, and block 128 once more.
pub fn at_the_end(_: &mut Random, sheet: &Sheet, logs: &Logs) -> Vec<Block> {
    let full = (0..sheet.instances()).filter(|instance| logs.of(*instance).len() == MOST_BLOCKS);
    let blocks = |instance| {
        let last = logs.of(instance).last().cloned();
        let next = last.clone().map(|mut next| {
            next.number += 1;
            next.rank = next.rank.saturating_add(1);
            next.cut[instance] += 1;
            next.citations.clear();
            next
        });
        next.into_iter().chain(last)
    };
    full.flat_map(blocks).collect()
}
