//! "Slips": bytes to values.
//!
//! Here are the refusals that concern the shape of the bytes alone: 1 and 2
//! for the slip, 4 for the body. All numbers are unsigned and little-endian.

/// A row of the table "What the caller gets when a slip or block is turned
/// away": its number, and the place that goes with it.
#[derive(Clone, Copy, Debug, PartialEq, Eq)]
pub struct Refusal {
    pub number: u8,
    pub place: u64,
}

impl Refusal {
    pub fn new(number: u8, place: usize) -> Refusal {
        Refusal { number, place: place as u64 }
    }
}

/// "A cut is sixteen counts held as one value, of which the first m are used
/// and the others are 0."
pub type Cut = [u16; 16];

/// Kind 1: the four sizes of a sheet.
#[derive(Clone, Copy, Debug, PartialEq, Eq)]
pub struct Head {
    /// Instances.
    pub m: u16,
    /// Accounts.
    pub a: u16,
    /// Registers.
    pub g: u16,
    /// Transactions.
    pub t: u16,
}

/// A debit or a credit.
#[derive(Clone, Copy, Debug, PartialEq, Eq)]
pub struct Posting {
    pub account: u16,
    pub amount: u32,
}

#[derive(Clone, Copy, Debug, PartialEq, Eq)]
pub struct Operation {
    pub code: u8,
    pub register: u8,
    pub value: u32,
}

/// The type byte of a payment.
pub const PAYMENT: u8 = 0;
/// The type byte of a contract.
pub const CONTRACT: u8 = 1;

/// Kind 3. The type is kept as the byte it is, for it may be out of range
/// until the sheet has checked it.
#[derive(Clone, Debug, PartialEq, Eq)]
pub struct Transaction {
    pub sort: u8,
    pub debits: Vec<Posting>,
    pub credits: Vec<Posting>,
    pub operations: Vec<Operation>,
}

impl Transaction {
    pub fn is_contract(&self) -> bool {
        self.sort == CONTRACT
    }
}

/// Kind 4.
#[derive(Clone, Debug, PartialEq, Eq)]
pub struct Block {
    pub instance: u16,
    /// The sequence number, counted from 1; never a rank.
    pub number: u16,
    pub rank: u32,
    pub cut: Cut,
    pub citations: Vec<u16>,
}

/// "A slip is a 4-byte length L, then L bytes: a two-byte kind and a body."
#[derive(Clone, Copy, Debug)]
pub struct Slip<'a> {
    pub kind: u16,
    pub body: &'a [u8],
    /// Where the next slip begins.
    pub next: usize,
}

/// The slip at an offset. "Order: … 1 (length field), 2, 1 (body)".
///
/// With no byte left at all the answer is 1 as well, at this offset; a caller
/// for whom that is the end of a run asks beforehand.
pub fn slip_at(bytes: &[u8], offset: usize) -> Result<Slip<'_>, Refusal> {
    let cut_short = Refusal::new(1, offset);
    let mut rest = Reader(bytes.get(offset..).unwrap_or_default());
    let length = rest.u32().ok_or(cut_short)? as usize;
    if !(2..=8_194).contains(&length) {
        return Err(Refusal::new(2, offset));
    }
    let mut content = Reader(rest.stretch(length).ok_or(cut_short)?);
    let kind = content.u16().ok_or(cut_short)?;
    Ok(Slip { kind, body: content.0, next: offset + 4 + length })
}

/// The body of a head. `None`, here and below, is refusal 4: a "body length
/// not the one of the kinds table, … or too short to hold" its counts. Each
/// reader takes what the kinds table names and then asks that nothing is left.
pub fn head(body: &[u8]) -> Option<Head> {
    let mut body = Reader(body);
    let head = Head { m: body.u16()?, a: body.u16()?, g: body.u16()?, t: body.u16()? };
    body.finished().then_some(head)
}

/// The body of the starts: a balances of 8 bytes.
pub fn starts(body: &[u8], a: u16) -> Option<Vec<u64>> {
    let mut body = Reader(body);
    let starts = body.list(a, Reader::u64)?;
    body.finished().then_some(starts)
}

/// The body of a transaction: four bytes, then debits, credits, operations.
/// "Each list begins where the one before it ended".
pub fn transaction(body: &[u8]) -> Option<Transaction> {
    let mut body = Reader(body);
    let sort = body.u8()?;
    let (d, c, o) = (body.u8()?, body.u8()?, body.u8()?);
    let debits = body.list(d.into(), Reader::posting)?;
    let credits = body.list(c.into(), Reader::posting)?;
    let operations = body.list(o.into(), Reader::operation)?;
    body.finished().then_some(Transaction { sort, debits, credits, operations })
}

/// The body of a block of a sheet with m instances. The counts come before
/// the list, so a list of any length is taken here and judged by 5 later.
pub fn block(body: &[u8], m: u16) -> Option<Block> {
    let mut body = Reader(body);
    let instance = body.u16()?;
    let number = body.u16()?;
    let rank = body.u32()?;
    let count = body.u16()?;
    let mut cut: Cut = [0; 16];
    for entry in cut.iter_mut().take(m.into()) {
        *entry = body.u16()?;
    }
    let citations = body.list(count, Reader::u16)?;
    body.finished().then_some(Block { instance, number, rank, cut, citations })
}

/// Takes numbers off the front of a stretch of bytes; `None` when they run out.
struct Reader<'a>(&'a [u8]);

impl<'a> Reader<'a> {
    fn finished(&self) -> bool {
        self.0.is_empty()
    }

    fn stretch(&mut self, length: usize) -> Option<&'a [u8]> {
        let (first, rest) = self.0.split_at_checked(length)?;
        self.0 = rest;
        Some(first)
    }

    fn array<const N: usize>(&mut self) -> Option<[u8; N]> {
        self.stretch(N)?.try_into().ok()
    }

    fn u8(&mut self) -> Option<u8> {
        self.array().map(u8::from_le_bytes)
    }

    fn u16(&mut self) -> Option<u16> {
        self.array().map(u16::from_le_bytes)
    }

    fn u32(&mut self) -> Option<u32> {
        self.array().map(u32::from_le_bytes)
    }

    fn u64(&mut self) -> Option<u64> {
        self.array().map(u64::from_le_bytes)
    }

    /// "Debits and credits are an account (2) and an amount (4 …)."
    fn posting(&mut self) -> Option<Posting> {
        Some(Posting { account: self.u16()?, amount: self.u32()? })
    }

    /// "An operation is a code (1), a register (1) and a value (4)."
    fn operation(&mut self) -> Option<Operation> {
        Some(Operation { code: self.u8()?, register: self.u8()?, value: self.u32()? })
    }

    fn list<T>(&mut self, count: u16, item: fn(&mut Self) -> Option<T>) -> Option<Vec<T>> {
        (0..count).map(|_| item(self)).collect()
    }
}
