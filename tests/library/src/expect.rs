//! The second engine's answers and readings, in the library's types.

use crosscheck::engine::{self, Answer, Block, Engine, Status};
use rugxeni::{Account, Offer, Refusal, Settlement};

use crate::subject::Readings;

pub fn refusal(refusal: engine::Refusal) -> Refusal {
    Refusal { number: refusal.number.into(), place: refusal.place }
}

fn offer(answer: Answer) -> Offer {
    match answer {
        Answer::Accepted { .. } => Offer::Accepted,
        Answer::Refused(refused) => Offer::Refused(refusal(refused)),
    }
}

/// A call for a slip where no byte is left is no offer, whatever the sheet.
pub fn offer_slip(engine: &mut Engine, bytes: &[u8], at: usize) -> Offer {
    if at >= bytes.len() {
        return Offer::NoByte;
    }
    offer(engine.offer_slip(bytes, at))
}

pub fn offer_values(engine: &mut Engine, block: &Block) -> Offer {
    offer(engine.offer_values(block))
}

pub fn readings(engine: &Engine) -> Readings {
    let settlement = |status| match status {
        Status::Open => Settlement::Open,
        Status::Paid => Settlement::Paid,
        Status::Returned => Settlement::Returned,
    };
    // No amount comes near 2^64: that would be a difference, and is seen as one.
    let amount = |amount: u128| u64::try_from(amount).unwrap_or(u64::MAX);
    let account = |account: engine::Account| Account {
        free: amount(account.free),
        held: amount(account.held),
    };
    Readings {
        log: engine.log().map_err(refusal),
        settlements: engine
            .settlements()
            .map(|list| list.into_iter().map(settlement).collect())
            .map_err(refusal),
        accounts: engine
            .accounts()
            .map(|list| list.into_iter().map(account).collect())
            .map_err(refusal),
        registers: engine.registers().map_err(refusal),
        share: engine.share().map_err(refusal),
    }
}
