//! Slips and runs that are not sound: lengths, kinds, counts, fields and sums
//! that are wrong, bytes missing, bytes too many.

use super::random::Random;
use super::Run;
use crate::engine::format::PAYMENT;
use crate::engine::text::LONGEST_RUN;
use crate::engine::{write, Block, Head, Operation, Posting, Sheet, Transaction};

/// A run with one or several damages.
pub fn damaged(random: &mut Random, run: &Run) -> Vec<u8> {
    let mut slips = run.slips();
    for _ in 0..random.pick(&[1, 1, 1, 2, 3]) {
        damage(random, run, &mut slips);
    }
    let mut bytes = slips.concat();
    if random.chance(25) {
        bytes.truncate(random.place(bytes.len() + 1));
    }
    bytes
}

/// A run with one slip in it that has one fault.
pub fn one_fault(random: &mut Random, run: &Run) -> Vec<u8> {
    let mut slips = run.slips();
    let place = any_kind(random, run).min(slips.len() - 1);
    let mut faulty = field_faults(run, place);
    if random.chance(15) {
        faulty = shape_faults(&slips[place]);
    }
    faulty.retain(|slip| *slip != slips[place]);
    replace(random, &mut slips, place, faulty);
    slips.concat()
}

/// A run with a damage at its last transaction: not there, there twice, the
/// run's last slip, or with a fault.
pub fn last_transaction(random: &mut Random, run: &Run) -> Vec<u8> {
    let mut slips = run.slips();
    let place = 1 + run.sheet.transactions.len();
    match random.below(6) {
        0 => {
            slips.remove(place);
        }
        1 => slips.insert(place, slips[place].clone()),
        2 => slips.truncate(place + random.place(2)),
        3 => replace(random, &mut slips, place, field_faults(run, place)),
        _ => {
            let last = &run.sheet.transactions[place - 2];
            replace(random, &mut slips, place, place_faults(&run.sheet.head, last));
        }
    }
    slips.concat()
}

/// One damage.
fn damage(random: &mut Random, run: &Run, slips: &mut Vec<Vec<u8>>) {
    let place = random.place(slips.len());
    match random.below(10) {
        // A field, or a list, of one slip.
        0..4 => {
            let place = any_kind(random, run).min(slips.len() - 1);
            replace(random, slips, place, field_faults(run, place));
        }
        // Its length or its kind.
        4 => {
            let place = any_kind(random, run).min(slips.len() - 1);
            let faulty = shape_faults(&slips[place]);
            replace(random, slips, place, faulty);
        }
        // A byte here and there.
        5 => {
            for _ in 0..=random.below(3) {
                let slip = random.place(slips.len());
                if !slips[slip].is_empty() {
                    let byte = random.place(slips[slip].len());
                    slips[slip][byte] = random.bits() as u8;
                }
            }
        }
        // Trailing bytes.
        6 => {
            let count = random.pick(&[1, 2, 3, 4, 5, 6, 40]);
            let zero = random.chance(50);
            slips.push((0..count).map(|_| if zero { 0 } else { random.bits() as u8 }).collect());
        }
        // A slip too many, too few, or out of its order.
        7 => slips.insert(place, slips[random.place(slips.len())].clone()),
        8 => {
            slips.remove(place);
        }
        _ => {
            let other = random.place(slips.len());
            slips.swap(place, other);
        }
    }
    if slips.is_empty() {
        slips.push(Vec::new());
    }
}

/// The place of a slip: of each kind often enough, however many blocks there
/// are.
fn any_kind(random: &mut Random, run: &Run) -> usize {
    let transactions = run.sheet.transactions.len();
    match random.below(10) {
        0 => 0,
        1 => 1,
        2..7 => 2 + random.place(transactions),
        _ => 2 + transactions + random.place(run.offers.len()),
    }
}

/// Puts one of the given slips, if there is one, in the place of another.
fn replace(random: &mut Random, slips: &mut [Vec<u8>], place: usize, mut faulty: Vec<Vec<u8>>) {
    if !faulty.is_empty() {
        slips[place] = faulty.swap_remove(random.place(faulty.len()));
    }
}

/// A run with 65,536 bytes, or one or two more or less.
pub fn near_the_limit(random: &mut Random, run: &Run) -> Vec<u8> {
    let mut bytes = filled(run);
    match random.below(4) {
        0 => bytes.push(0),
        1 => bytes.extend([0; 2]),
        2 => bytes.truncate(LONGEST_RUN - 1),
        _ => {}
    }
    bytes
}

/// A run with refused blocks behind it, so that it has 65,536 bytes. Every
/// slip has an even number of bytes, so that this can be met exactly.
pub fn filled(run: &Run) -> Vec<u8> {
    let m = run.sheet.head.m;
    let nobody = |citations| {
        let citations = vec![0; citations];
        write::block(&Block { instance: m, number: 1, rank: 1, cut: [0; 16], citations }, m)
    };
    let (shortest, longest) = (nobody(0).len(), nobody(32).len());
    let mut slips = run.slips();
    while slips.concat().len() > LONGEST_RUN - shortest {
        slips.pop();
    }
    let mut bytes = slips.concat();
    while bytes.len() < LONGEST_RUN {
        // Either the last one, or one that leaves room for another.
        let left = LONGEST_RUN - bytes.len();
        let next = if left <= longest { left } else { longest.min(left - shortest) };
        bytes.extend(nobody((next - shortest) / 2));
    }
    bytes
}

/// Every way in which one field of a slip of a sound run can be wrong.
pub fn field_faults(run: &Run, place: usize) -> Vec<Vec<u8>> {
    let Run { sheet, offers } = run;
    let blocks = 2 + sheet.transactions.len();
    match place {
        0 => head_faults(&sheet.head),
        1 => starts_faults(&sheet.starts),
        _ if place < blocks => transaction_faults(&sheet.head, &sheet.transactions[place - 2]),
        _ => offers.get(place - blocks).map_or(Vec::new(), |block| block_faults(sheet, block)),
    }
}

/// Refusal 5 each.
pub fn head_faults(head: &Head) -> Vec<Vec<u8>> {
    let mut faulty = Vec::new();
    for m in [0, 17, 65_535] {
        faulty.push(Head { m, ..*head });
    }
    for a in [0, 1_025, 65_535] {
        faulty.push(Head { a, ..*head });
    }
    for above in [1_025, 65_535] {
        faulty.push(Head { g: above, ..*head });
        faulty.push(Head { t: above, ..*head });
    }
    faulty.push(Head { g: 65, ..*head });
    faulty.iter().map(write::head).collect()
}

/// Refusal 5, and 4 for a list of another length.
pub fn starts_faults(starts: &[u64]) -> Vec<Vec<u8>> {
    let mut faulty = vec![[starts, &[0]].concat(), starts[1..].to_vec()];
    for above in [(1 << 40) + 1, 1 << 63, u64::MAX] {
        for place in [0, starts.len() / 2, starts.len() - 1] {
            let mut changed = starts.to_vec();
            changed[place] = above;
            faulty.push(changed);
        }
    }
    // 1,025 balances would not fit a slip: refusal 2.
    faulty.iter().map(|starts| write::starts(starts)).collect()
}

/// Refusals 5, 6 and 7, some together.
pub fn transaction_faults(head: &Head, sound: &Transaction) -> Vec<Vec<u8>> {
    let mut faulty = Vec::new();
    let mut with = |change: &dyn Fn(&mut Transaction)| {
        let mut changed = sound.clone();
        change(&mut changed);
        faulty.push(write::transaction(&changed));
    };
    for sort in [2, 255] {
        with(&|t| t.sort = sort);
    }
    let posting = Posting { account: 0, amount: 1 };
    let operation = Operation { code: 2, register: 0, value: 1 };
    for count in [0, 5, 255] {
        with(&|t| t.debits.resize(count, posting));
        with(&|t| t.credits.resize(count, posting));
    }
    with(&|t| t.operations.resize(9, operation));
    with(&|t| (t.sort, t.operations) = (PAYMENT, vec![operation]));
    for account in [head.a, 65_535] {
        with(&|t| on_last(&mut t.debits, |posting| posting.account = account));
        with(&|t| on_last(&mut t.credits, |posting| posting.account = account));
    }
    with(&|t| on_last(&mut t.debits, |posting| posting.amount = 0));
    with(&|t| on_last(&mut t.credits, |posting| posting.amount = 0));
    for code in [5, 255] {
        with(&|t| on_last(&mut t.operations, |operation| operation.code = code));
    }
    for register in [head.g as u8, 255] {
        with(&|t| on_last(&mut t.operations, |operation| operation.register = register));
    }
    // An account twice, with the same sum and with another.
    with(&|t| twice(&mut t.debits));
    with(&|t| twice(&mut t.credits));
    with(&|t| (twice(&mut t.debits), twice(&mut t.credits)).1);
    // A sum one more or one less, or off by 2^32 − 1.
    with(&|t| on_last(&mut t.debits, |posting| posting.amount = posting.amount.wrapping_add(1)));
    with(&|t| on_last(&mut t.credits, |posting| posting.amount = posting.amount.wrapping_sub(1)));
    with(&|t| on_last(&mut t.credits, |posting| posting.amount = u32::MAX));
    // Sums that differ by 2^32.
    let postings = |list: &[(u16, u32)]| -> Vec<Posting> {
        list.iter().map(|&(account, amount)| Posting { account, amount }).collect()
    };
    let (above, below) = (postings(&[(0, u32::MAX), (1, 4)]), postings(&[(0, 2), (1, 1)]));
    with(&|t| (t.debits, t.credits) = (above.clone(), below.clone()));
    with(&|t| (t.debits, t.credits) = (below.clone(), above.clone()));
    faulty
}

/// Refusals 5, 6 and 7 at each place of each list: a field out of range, an
/// account of each two places the same, a sum one more or less.
pub fn place_faults(head: &Head, sound: &Transaction) -> Vec<Vec<u8>> {
    let mut faulty = Vec::new();
    let lists: [fn(&mut Transaction) -> &mut Vec<Posting>; 2] =
        [|transaction| &mut transaction.debits, |transaction| &mut transaction.credits];
    let mut with = |change: &dyn Fn(&mut Transaction)| {
        let mut changed = sound.clone();
        change(&mut changed);
        faulty.push(write::transaction(&changed));
    };
    for list in lists {
        let postings = list(&mut sound.clone()).clone();
        for (place, posting) in postings.iter().enumerate() {
            with(&|t| list(t)[place].account = head.a);
            with(&|t| list(t)[place].amount = 0);
            with(&|t| list(t)[place].amount = posting.amount ^ 1);
            for other in 0..place {
                with(&|t| list(t)[other].account = posting.account);
            }
        }
    }
    for place in 0..sound.operations.len() {
        with(&|t| t.operations[place].code = 5);
        with(&|t| t.operations[place].register = head.g as u8);
    }
    faulty
}

/// Changes the last of a list, if there is one.
fn on_last<T>(list: &mut [T], change: impl Fn(&mut T)) {
    if let Some(last) = list.last_mut() {
        change(last);
    }
}

/// Names the first account again: in the last posting, or in one more.
fn twice(list: &mut Vec<Posting>) {
    let Some(first) = list.first().copied() else {
        return;
    };
    if list.len() == 1 {
        list.push(first);
    } else {
        on_last(list, |posting| posting.account = first.account);
    }
}

/// Refusal 5 for 33 citations, 4 for a count that is not that of the list.
pub fn block_faults(sheet: &Sheet, sound: &Block) -> Vec<Vec<u8>> {
    // The count is at bytes 14 and 15 of a block slip.
    const COUNT: usize = 14;
    let m = sheet.head.m;
    let mut many = sound.clone();
    many.citations.resize(33, 0);
    let mut elsewhere = many.clone();
    elsewhere.instance = m;
    let mut faulty = vec![write::block(&many, m), write::block(&elsewhere, m)];
    let count = sound.citations.len() as u16;
    for wrong in [count + 1, count.wrapping_sub(1), 33, 65_535] {
        let mut slip = write::block(sound, m);
        slip[COUNT..COUNT + 2].copy_from_slice(&wrong.to_le_bytes());
        faulty.push(slip);
    }
    faulty
}

/// Every way in which length and kind of a slip can be wrong.
pub fn shape_faults(sound: &[u8]) -> Vec<Vec<u8>> {
    let mut faulty = Vec::new();
    let Some((length, content)) = sound.split_first_chunk::<4>() else {
        return faulty;
    };
    let length = u32::from_le_bytes(*length);
    for wrong in [0, 1, 2, length.wrapping_sub(1), length.wrapping_add(1), 8_194, 8_195, u32::MAX] {
        faulty.push([&wrong.to_le_bytes()[..], content].concat());
    }
    let Some((_, body)) = content.split_first_chunk::<2>() else {
        return faulty;
    };
    for kind in [0, 1, 2, 3, 4, 5, 256, 257, 260, 65_535] {
        faulty.push(write::slip(kind, body));
    }
    // A body with a byte more or less, its length said rightly.
    let kind = u16::from_le_bytes([content[0], content[1]]);
    faulty.push(write::slip(kind, &[body, &[0]].concat()));
    faulty.push(write::slip(kind, &body[..body.len().saturating_sub(1)]));
    faulty.push(write::slip(kind, &[]));
    // Cut short.
    faulty.push(sound[..sound.len() / 2].to_vec());
    faulty.push(sound[..3].to_vec());
    faulty
}
