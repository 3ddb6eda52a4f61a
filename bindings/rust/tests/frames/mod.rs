//! Frames as bytes, put together without the library, and the worked run of document 01.

/// A frame of a kind and a body.
pub fn frame(kind: u16, body: &[u8]) -> Vec<u8> {
    let length = body.len() as u32 + 2;
    [&length.to_le_bytes()[..], &kind.to_le_bytes(), body].concat()
}

fn numbers(list: &[u16]) -> Vec<u8> {
    list.iter()
        .flat_map(|number| number.to_le_bytes())
        .collect()
}

/// A header: m, a, g and t.
pub fn header(sizes: [u16; 4]) -> Vec<u8> {
    frame(1, &numbers(&sizes))
}

pub fn balances(list: &[u64]) -> Vec<u8> {
    let body: Vec<u8> = list
        .iter()
        .flat_map(|balance| balance.to_le_bytes())
        .collect();
    frame(2, &body)
}

/// A transaction: kind, debits and credits as (account, amount), operations as (code, register, value).
pub fn transaction(
    kind: u8,
    debits: &[(u16, u32)],
    credits: &[(u16, u32)],
    operations: &[(u8, u8, u32)],
) -> Vec<u8> {
    let counts = [debits.len(), credits.len(), operations.len()].map(|count| count as u8);
    let mut body = [&[kind][..], &counts].concat();
    for (account, amount) in debits.iter().chain(credits) {
        body.extend(account.to_le_bytes());
        body.extend(amount.to_le_bytes());
    }
    for (code, register, value) in operations {
        body.extend([*code, *register]);
        body.extend(value.to_le_bytes());
    }
    frame(3, &body)
}

/// A block; the cut is as long as the sheet has instances.
pub fn block(instance: u16, sequence: u16, rank: u32, cut: &[u16], citations: &[u16]) -> Vec<u8> {
    let mut body = numbers(&[instance, sequence]);
    body.extend(rank.to_le_bytes());
    body.extend(numbers(&[citations.len() as u16]));
    body.extend(numbers(cut));
    body.extend(numbers(citations));
    frame(4, &body)
}

/// The sheet of "One reading, whole": m 2, a 3, g 1, t 2. Its frames begin at 0, 14, 44 and 72; it has 100 bytes.
pub fn worked_sheet() -> Vec<u8> {
    [
        header([2, 3, 1, 2]),
        balances(&[10, 5, 0]),
        transaction(0, &[(0, 4), (1, 5)], &[(2, 9)], &[]),
        transaction(1, &[(2, 6)], &[(1, 6)], &[(2, 0, 7)]),
    ]
    .concat()
}

/// Sheet and blocks; the blocks begin at 100 and 122, the run ends at 146.
pub fn worked_run() -> Vec<u8> {
    [
        worked_sheet(),
        block(1, 1, 1, &[0, 0], &[0]),
        block(0, 1, 2, &[0, 1], &[0, 1]),
    ]
    .concat()
}
