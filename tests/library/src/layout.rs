//! The lent buffers by `docs/BUFFERS.md`: how long they have to be, and what
//! they hold.

use crosscheck::engine::{write, Block, Head, Ledger, Status};

use crate::boundary::{Buffer, Call, Lent};
use crate::difference::{same, Difference};

/// What `report` lends: the buffers of an offer, as long as the largest sheet
/// needs them, and its text.
const REPORT: [(Buffer, usize); 9] = [
    (Buffer::Sheet, 110_592),
    (Buffer::Ranks, 2_048),
    (Buffer::Cuts, 32_768),
    (Buffer::Cites, 65_536),
    (Buffer::Good, 65_536),
    (Buffer::Counts, 2_048),
    (Buffer::Table, 1_024),
    (Buffer::Order, 2_048),
    (Buffer::Out, 262_144),
];

/// Buffers that suffice for every sheet, and for a text.
pub fn largest() -> Lent {
    let mut lent = Lent::default();
    REPORT.iter().for_each(|(buffer, least)| lent.lengthen(*buffer, *least, 0));
    lent
}

/// What a call lends, in its order, with the least lengths: the tables of
/// `docs/BUFFERS.md`. All sizes are 0 before the head is known. `log` is the
/// length of the global log.
pub fn needs(call: &Call, head: &Head, log: usize) -> Vec<(Buffer, usize)> {
    use Buffer::*;
    let [m, a, g, t] = [head.m, head.a, head.g, head.t].map(usize::from);
    let sheet = (Sheet, 8 * a + 100 * t);
    let kept = [sheet, (Ranks, 128 * m), (Cuts, 2048 * m), (Cites, 4096 * m), (Good, 4096 * m)];
    let working = [(Counts, 2 * t), (Table, t), (Order, 128 * m)];
    let filled: &[(Buffer, usize)] = match call {
        Call::Load(..) => return vec![sheet],
        Call::OfferSlip(..) | Call::OfferValues(_) => return [&kept[..], &working].concat(),
        Call::Log => return vec![kept[1], (Instances, log), (Sequences, log)],
        Call::Accounts => &[(Free, a), (Held, a)],
        Call::Registers => &[(Values, g)],
        Call::Settlements => &[(Statuses, t)],
        Call::Share => &[],
        Call::Frame(..) => return Vec::new(),
        Call::Report(_) => return REPORT.to_vec(),
    };
    [&kept[..2], &kept[3..], &working, filled].concat()
}

/// What all readings together have filled.
pub fn filled(ledger: &Ledger, lent: &Lent) -> Result<(), Difference> {
    let accounts = ledger.accounts();
    let amounts = |list: &[u64]| list.iter().take(accounts.len()).map(|n| u128::from(*n)).collect();
    let got: [Vec<u128>; 2] = [amounts(&lent.free), amounts(&lent.held)];
    let free = accounts.iter().map(|account| account.free).collect();
    let held = accounts.iter().map(|account| account.held).collect();
    same(&got, &[free, held], || "amounts".to_string())?;
    let registers = ledger.registers();
    same(&lent.values[..registers.len()], &registers[..], || "registers".to_string())?;
    let status = |status: &Status| match status {
        Status::Open => 0,
        Status::Paid => 1,
        Status::Returned => 2,
    };
    let statuses: Vec<u8> = ledger.settlements().iter().map(status).collect();
    same(&lent.statuses[..statuses.len()], &statuses[..], || "settlements".to_string())?;
    let (instances, numbers): (Vec<u16>, Vec<u16>) = ledger.log().into_iter().unzip();
    same(&lent.instances[..instances.len()], &instances[..], || "log".to_string())?;
    same(&lent.sequences[..numbers.len()], &numbers[..], || "log's numbers".to_string())
}

/// The 22 numbers, and what is kept from call to call.
pub fn kept(ledger: &Ledger, lent: &Lent) -> Result<(), Difference> {
    let (sheet, logs) = (ledger.sheet(), ledger.logs());
    let Head { m, a, g, t } = sheet.head;
    let mut heights = [0; 16];
    for (instance, height) in heights.iter_mut().enumerate().take(m.into()) {
        *height = logs.of(instance).len() as u16;
    }
    same(&lent.numbers[..4], &[m, a, g, t][..], || "sizes".to_string())?;
    same(&lent.numbers[5..], &[&[t][..], &heights].concat()[..], || "heights".to_string())?;
    let bytes = &lent.kept.sheet;
    for (k, start) in sheet.starts.iter().enumerate() {
        same(&bytes[8 * k..][..8], &start.to_le_bytes()[..], || format!("balance {k} kept"))?;
    }
    for (x, transaction) in sheet.transactions.iter().enumerate() {
        let body = &write::transaction(transaction)[6..];
        let at = 8 * usize::from(a) + 100 * x;
        same(&bytes[at..][..body.len()], body, || format!("body {x} kept"))?;
    }
    logs.all().try_for_each(|block| kept_block(ledger, lent, block))
}

/// A block in the kept buffers, with the outcomes of its parts.
fn kept_block(ledger: &Ledger, lent: &Lent, block: &Block) -> Result<(), Difference> {
    let kept = &lent.kept;
    let index = 128 * usize::from(block.instance) + usize::from(block.number) - 1;
    let what = |part: &str| format!("{part} kept of block {} {}", block.instance, block.number);
    same(&kept.ranks[index], &block.rank, || what("rank"))?;
    same(&kept.cuts[16 * index..][..16], &block.cut[..], || what("cut"))?;
    let mut cites = block.citations.clone();
    cites.resize(32, u16::MAX);
    same(&kept.cites[32 * index..][..32], &cites[..], || what("citations"))?;
    let outcomes = &ledger.outcomes().of(block.instance.into())[usize::from(block.number) - 1];
    let good = &kept.good[32 * index..][..outcomes.len()];
    let good: Vec<bool> = good.iter().map(|good| *good == 1).collect();
    same(&good, outcomes, || what("outcomes"))
}
