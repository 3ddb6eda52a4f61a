//! Values for the writers, sound and not: headers, balances and blocks. Each
//! list begins with sound ones; of the others the second engine is asked.

use crosscheck::engine::Head;
use crosscheck::generate::random::Random;

use super::{BlockValues, Values};

/// Sizes at their limits, next to them, and the same in the lower byte.
const INSTANCES: [u16; 8] = [0, 1, 2, 15, 16, 17, 257, 65_535];
const ACCOUNTS: [u16; 7] = [0, 1, 2, 1_023, 1_024, 1_025, 65_535];
const REGISTERS: [u16; 7] = [0, 1, 63, 64, 65, 320, 65_535];
const TRANSACTIONS: [u16; 6] = [0, 1, 1_023, 1_024, 1_025, 65_535];

/// The greatest balance.
const MOST: u64 = 1 << 40;

/// A cut has so many entries.
const ENTRIES: usize = 16;

/// So many more are none more in two bytes. As these lists are long, they are
/// made so many times in a hundred.
const TWO_BYTES: usize = 1 << 16;
const WRAPPED: u64 = 2;

/// Any number, the ends of a byte and of two often.
fn any(random: &mut Random) -> u16 {
    let other = random.bits() as u16;
    random.pick(&[0, 1, 255, 256, 65_535, other])
}

/// Sizes in their ranges.
pub fn sizes(random: &mut Random) -> Head {
    Head {
        m: random.within(1..=16) as u16,
        a: random.within(1..=1_024) as u16,
        g: random.within(0..=64) as u16,
        t: random.within(0..=1_024) as u16,
    }
}

/// Headers: each size at and next to its limits, the others sound, and all of
/// them so.
pub fn headers(random: &mut Random) -> Vec<Values> {
    let sound = sizes(random);
    let mut heads =
        vec![sound, Head { m: 1, a: 1, g: 0, t: 0 }, Head { m: 16, a: 1_024, g: 64, t: 1_024 }];
    heads.extend(INSTANCES.map(|m| Head { m, ..sound }));
    heads.extend(ACCOUNTS.map(|a| Head { a, ..sound }));
    heads.extend(REGISTERS.map(|g| Head { g, ..sound }));
    heads.extend(TRANSACTIONS.map(|t| Head { t, ..sound }));
    heads.extend((0..6).map(|_| Head {
        m: random.pick(&INSTANCES),
        a: random.pick(&ACCOUNTS),
        g: random.pick(&REGISTERS),
        t: random.pick(&TRANSACTIONS),
    }));
    heads.into_iter().map(Values::Header).collect()
}

fn balance(random: &mut Random) -> u64 {
    match random.below(3) {
        0 => random.pick(&[0, 1, 255, 256, u64::from(u32::MAX), 1 << 32, MOST - 1, MOST]),
        _ => random.below(MOST + 1),
    }
}

/// Balances of `a` accounts: amounts at and above the greatest, lists of other
/// lengths, and both at once.
pub fn balances(random: &mut Random, a: usize) -> Vec<Values> {
    let sound: Vec<u64> = (0..a).map(|_| balance(random)).collect();
    let mut lists = vec![sound.clone(), vec![MOST; a]];
    lists.extend([MOST + 1, MOST + 1, MOST << 1, 1 << 48, u64::MAX].map(|above| {
        let mut list = sound.clone();
        list[random.pick(&[0, a / 2, a - 1])] = above;
        list
    }));
    let mut lengths = vec![0, 1, a - 1, a - 1, a + 1, a + 1, 2 * a, 1_024, 1_025];
    lengths.extend(random.chance(WRAPPED).then_some(a + TWO_BYTES));
    lists.extend(lengths.into_iter().map(|length| {
        let mut list = sound.clone();
        list.resize(length, random.pick(&[0, MOST, MOST + 1]));
        list
    }));
    lists.into_iter().map(Values::Balances).collect()
}

/// A block with so many citations and its cut's first `m` entries, all numbers
/// any: none of them is the writer's to judge.
fn block(random: &mut Random, m: usize, citations: usize) -> BlockValues {
    let mut cut: Vec<u16> = (0..m).map(|_| any(random)).collect();
    cut.resize(ENTRIES, 0);
    let rank = random.bits() as u32;
    BlockValues {
        instance: any(random),
        sequence: any(random),
        rank: random.pick(&[0, 1, 65_536, u32::MAX, rank]),
        count: citations as u16,
        cut,
        citations: (0..citations).map(|_| any(random)).collect(),
    }
}

/// Blocks on a sheet with `m` instances: sound ones, then those with faults.
pub fn blocks(random: &mut Random, m: usize) -> Vec<Values> {
    let mut blocks = counted(random, m);
    blocks.extend(miscounted(random, m));
    blocks.extend(with_unused(random, m));
    blocks.extend(with_cuts(random, m));
    blocks.into_iter().map(Values::Block).collect()
}

/// Counts at and next to their limits, and above.
fn counted(random: &mut Random, m: usize) -> Vec<BlockValues> {
    let more = random.pick(&[34, 64, 256, 300]);
    [3, 0, 1, 31, 32, 33, more].map(|count| block(random, m, count)).to_vec()
}

/// Counts next to the list's length, also where the cut is not sound. At times
/// as many citations as the count modulo 2^16, and as many as can be counted.
fn miscounted(random: &mut Random, m: usize) -> Vec<BlockValues> {
    let off = |citations: usize| {
        let mut off = block(random, m, citations);
        off.count = random.pick(&[off.count + 1, off.count.saturating_sub(1), 65_535]);
        off.cut[random.pick(&[m - 1, ENTRIES - 1])] = 1;
        off
    };
    let mut blocks = [0, 1, 31, 32, 33].map(off).to_vec();
    if random.chance(WRAPPED) {
        blocks.push(block(random, m, TWO_BYTES + 1));
        blocks.push(block(random, m, TWO_BYTES - 1));
    }
    blocks
}

/// Entries that are not 0, the first and the last unused one among them.
fn with_unused(random: &mut Random, m: usize) -> Vec<BlockValues> {
    let places = [m - 1, m.min(ENTRIES - 1), ENTRIES - 1, random.place(ENTRIES)];
    let unused = |place: usize| {
        let citations = random.pick(&[0, 2, 32, 33]);
        let mut unused = block(random, m, citations);
        unused.cut[place] = random.pick(&[1, 256, 65_535]);
        unused
    };
    places.map(unused).to_vec()
}

/// Cuts of every length; behind sixteen there may be anything.
fn with_cuts(random: &mut Random, m: usize) -> Vec<BlockValues> {
    let lengths = [0, 1, m - 1, m, m + 1, ENTRIES - 1, ENTRIES, ENTRIES + 1, ENTRIES + 4];
    let of_length = |length: usize| {
        let mut of_length = block(random, m, 2);
        of_length.cut.resize(length, random.pick(&[0, 1, 65_535]));
        of_length
    };
    lengths.map(of_length).to_vec()
}
