//! "Rules of the ledger", paragraph by paragraph, with request 04 of document
//! 02 in the place of the rule that it replaces.
//!
//! Everything is worked out anew for each view. The one thing kept is the
//! outcome of a part, because "The outcome is never changed".

use super::format::{Block, Operation};
use super::ledger::Logs;
use super::sheet::Sheet;

/// What a transaction is in a view.
#[derive(Clone, Copy, Debug, PartialEq, Eq)]
pub enum Status {
    Open,
    Paid,
    Returned,
}

/// The amounts of an account in the full view.
#[derive(Clone, Copy, Debug, PartialEq, Eq)]
pub struct Account {
    pub free: u128,
    pub held: u128,
}

// ---------------------------------------------------------------- View

/// A view: some first blocks of every instance and, in the view of a
/// citation, the first citations of the block that holds it.
#[derive(Clone, Copy, Debug, PartialEq, Eq)]
pub struct View {
    /// How many whole blocks of each instance are in the view.
    counts: [usize; 16],
    /// The block that the citation stands in, if this is a citation's view.
    unfinished: Option<Unfinished>,
}

/// The first `places` citations of the block of `instance` that follows the
/// whole ones.
#[derive(Clone, Copy, Debug, PartialEq, Eq)]
struct Unfinished {
    instance: usize,
    places: usize,
}

impl View {
    /// "The full view is everything accepted."
    pub fn full(logs: &Logs) -> View {
        let mut counts = [0; 16];
        for (instance, count) in counts.iter_mut().enumerate().take(logs.instances()) {
            *count = logs.of(instance).len();
        }
        View { counts, unfinished: None }
    }

    /// "The view of a citation holds blocks 1 to cut entry j of every other
    /// instance j, all earlier blocks of its own instance, and earlier
    /// citations of its own block."
    pub fn of_citation(block: &Block, place: usize) -> View {
        let instance = usize::from(block.instance);
        let mut counts = block.cut.map(usize::from);
        counts[instance] = usize::from(block.number) - 1;
        View { counts, unfinished: Some(Unfinished { instance, places: place }) }
    }

    /// The whole blocks of an instance in this view.
    fn blocks_of<'a>(&self, logs: &'a Logs, instance: usize) -> &'a [Block] {
        &logs.of(instance)[..self.counts[instance]]
    }

    /// All whole blocks in this view.
    fn blocks<'a>(&self, logs: &'a Logs) -> Vec<&'a Block> {
        (0..logs.instances()).flat_map(|instance| self.blocks_of(logs, instance)).collect()
    }

    /// All citations in this view, each as its block and list place.
    fn citations<'a>(&self, logs: &'a Logs) -> Vec<(&'a Block, usize)> {
        let mut citations = Vec::new();
        for block in self.blocks(logs) {
            citations.extend((0..block.citations.len()).map(|place| (block, place)));
        }
        if let Some(Unfinished { instance, places }) = self.unfinished {
            let block = &logs.of(instance)[self.counts[instance]];
            citations.extend((0..places).map(|place| (block, place)));
        }
        citations
    }
}

// -------------------------------------------------------- Part outcome

/// The outcome of every citation judged so far: for each instance, for each
/// block, for each list place, whether the part is good.
#[derive(Clone, Debug, PartialEq, Eq)]
pub struct Outcomes(Vec<Vec<Vec<bool>>>);

impl Outcomes {
    pub fn new(instances: usize) -> Outcomes {
        Outcomes(vec![Vec::new(); instances])
    }

    /// The outcomes of an instance: block by block, place by place.
    pub fn of(&self, instance: usize) -> &[Vec<bool>] {
        &self.0[instance]
    }

    /// Whether the part booked by a citation is good.
    fn is_good(&self, block: &Block, place: usize) -> bool {
        self.0[usize::from(block.instance)][usize::from(block.number) - 1][place]
    }
}

/// "A part is good if every debit in it is at most the free amount of its
/// account in the citation's view, otherwise failed."
fn part_is_good(
    sheet: &Sheet,
    logs: &Logs,
    outcomes: &Outcomes,
    block: &Block,
    place: usize,
) -> bool {
    let view = View::of_citation(block, place);
    let picture = Picture::of(sheet, logs, outcomes, &view);
    let transaction = usize::from(block.citations[place]);
    let part = sheet.part(transaction, usize::from(block.instance));
    part.iter().all(|debit| {
        let free = picture.free(debit.account);
        assert!(free >= 0, "a part is judged by a free amount below zero");
        i128::from(debit.amount) <= free
    })
}

/// Judges the parts of the first block of an instance that has no outcomes
/// yet. All blocks in its cut must have theirs: "The rules take each citation
/// after those in its view."
pub fn judge_block(sheet: &Sheet, logs: &Logs, outcomes: &mut Outcomes, instance: usize) {
    let block = &logs.of(instance)[outcomes.0[instance].len()];
    outcomes.0[instance].push(Vec::new());
    for place in 0..block.citations.len() {
        let good = part_is_good(sheet, logs, outcomes, block, place);
        if let Some(last) = outcomes.0[instance].last_mut() {
            last.push(good);
        }
    }
}

/// All outcomes from sheet and instance logs alone, whatever the order was in
/// which the blocks came: the highest instance whose next block has its whole
/// cut judged goes first, until none is left.
pub fn outcomes(sheet: &Sheet, logs: &Logs) -> Outcomes {
    let mut outcomes = Outcomes::new(logs.instances());
    while let Some(instance) = (0..logs.instances()).rev().find(|i| is_ready(logs, &outcomes, *i)) {
        judge_block(sheet, logs, &mut outcomes, instance);
    }
    outcomes
}

/// Whether an instance has a block without outcomes whose cut is all judged.
fn is_ready(logs: &Logs, outcomes: &Outcomes, instance: usize) -> bool {
    let next = logs.block(instance, outcomes.of(instance).len() + 1);
    next.is_some_and(|block| {
        (0..logs.instances()).all(|j| usize::from(block.cut[j]) <= outcomes.of(j).len())
    })
}

// ------------------------------------------------ Global log of a view

/// "Pairs are compared as the number rank × 16 + instance."
fn key(rank: u64, instance: u16) -> u64 {
    rank * 16 + u64::from(instance)
}

fn key_of(block: &Block) -> u64 {
    key(block.rank.into(), block.instance)
}

/// "The log is every block of the view below the bar, ascending." The
/// unfinished block of a citation's view "counts neither for the bar nor for
/// the log".
///
/// Request 04: "Logs, printed or in a cut's view, follow it from here", so
/// there is one rule for every view. "A view with no blocks at all still has
/// an empty log": there is no block to be below the bar.
pub fn global_log<'a>(logs: &'a Logs, view: &View) -> Vec<&'a Block> {
    let bar = bar(logs, view);
    let mut log = view.blocks(logs);
    log.retain(|block| key_of(block) < bar);
    log.sort_by_key(|block| key_of(block));
    log
}

/// "take each instance's last block, and of these the least by (rank,
/// instance): the bar is (that rank + 1, that instance)".
fn bar(logs: &Logs, view: &View) -> u64 {
    let instances = (0..16).take(logs.instances());
    let last = instances.map(|instance| (last_rank(logs, view, instance), instance));
    let least = last.min_by_key(|(rank, instance)| key(*rank, *instance));
    let (rank, instance) = least.expect("a head has at least one instance");
    key(rank + 1, instance)
}

/// The rank of an instance's last block in a view. Request 04: "An instance
/// without a block in the view now counts as having last rank 0."
fn last_rank(logs: &Logs, view: &View, instance: u16) -> u64 {
    view.blocks_of(logs, instance.into()).last().map_or(0, |block| block.rank.into())
}

// ------------------------------------- Settlement and amounts in a view

/// A part that is booked in a view.
#[derive(Clone, Copy, Debug)]
struct Part {
    instance: usize,
    good: bool,
}

/// What the rules say of one view.
#[derive(Clone, Debug)]
pub struct Picture<'a> {
    sheet: &'a Sheet,
    /// For each transaction its parts in the view.
    parts: Vec<Vec<Part>>,
    /// For each transaction what it is in the view.
    settlements: Vec<Status>,
    /// The registers after the last contract of the view's log.
    registers: Vec<u32>,
}

impl<'a> Picture<'a> {
    /// The picture of a view whose citations have all been judged.
    pub fn of(sheet: &'a Sheet, logs: &Logs, outcomes: &Outcomes, view: &View) -> Picture<'a> {
        let transactions = sheet.transactions.len();
        let mut picture = Picture {
            sheet,
            parts: vec![Vec::new(); transactions],
            settlements: vec![Status::Open; transactions],
            registers: vec![0; sheet.head.g.into()],
        };
        picture.book(logs, outcomes, view);
        picture.settle_payments();
        picture.run_contracts(&global_log(logs, view));
        picture
    }

    /// "A block cites a transaction and thereby books its instance's part."
    fn book(&mut self, logs: &Logs, outcomes: &Outcomes, view: &View) {
        for (block, place) in view.citations(logs) {
            let good = outcomes.is_good(block, place);
            let part = Part { instance: block.instance.into(), good };
            self.parts[usize::from(block.citations[place])].push(part);
        }
    }

    /// "A payment is returned if some part in the view failed, paid if all
    /// parts are there and good, else open."
    fn settle_payments(&mut self) {
        for (number, transaction) in self.sheet.transactions.iter().enumerate() {
            if transaction.is_contract() {
                continue;
            }
            let parts = &self.parts[number];
            self.settlements[number] = if parts.iter().any(|part| !part.good) {
                Status::Returned
            } else if parts.len() == self.sheet.parts(number) {
                Status::Paid
            } else {
                Status::Open
            };
        }
    }

    /// "A contract is open until the blocks of all its parts are in the
    /// view's log; it then runs at the citation that comes last there."
    /// "Contracts run in log order, and within a block in citation order."
    fn run_contracts(&mut self, log: &[&Block]) {
        let mut logged = vec![0; self.settlements.len()];
        for number in log.iter().flat_map(|block| &block.citations).map(|n| usize::from(*n)) {
            logged[number] += 1;
            let is_contract = self.sheet.transactions[number].is_contract();
            if is_contract && logged[number] == self.sheet.parts(number) {
                self.run_contract(number);
            }
        }
    }

    /// "It is paid if all parts are good and all operations pass, else
    /// returned with all registers unchanged."
    fn run_contract(&mut self, number: usize) {
        let all_good = self.parts[number].iter().all(|part| part.good);
        let after = operate(&self.registers, &self.sheet.transactions[number].operations);
        self.settlements[number] = match after {
            Some(after) if all_good => {
                self.registers = after;
                Status::Paid
            }
            _ => Status::Returned,
        };
    }

    pub fn settlements(&self) -> &[Status] {
        &self.settlements
    }

    pub fn registers(&self) -> &[u32] {
        &self.registers
    }

    /// "Free = start + credits of paid transactions − debits of good parts
    /// whose transaction is not returned."
    ///
    /// In the view of a citation this can come out below zero for an account
    /// of another instance; no rule asks for it there.
    pub fn free(&self, account: u16) -> i128 {
        let mut free = i128::from(self.sheet.starts[usize::from(account)]);
        for (number, status) in self.settlements.iter().enumerate() {
            if *status == Status::Paid {
                free += self.credit(number, account);
            }
            if *status != Status::Returned {
                free -= self.good_debit(number, account);
            }
        }
        free
    }

    /// "Held = debits of good parts whose transaction is open."
    pub fn held(&self, account: u16) -> i128 {
        let open =
            self.settlements.iter().enumerate().filter(|(_, status)| **status == Status::Open);
        open.map(|(number, _)| self.good_debit(number, account)).sum()
    }

    /// Free and held of every account, for the full view.
    pub fn accounts(&self) -> Vec<Account> {
        (0..self.sheet.head.a).map(|account| self.account(account)).collect()
    }

    fn account(&self, account: u16) -> Account {
        let (free, held) = (self.free(account), self.held(account));
        assert!(free >= 0 && held >= 0, "an account of the full view is below zero");
        Account { free: free.unsigned_abs(), held: held.unsigned_abs() }
    }

    /// What a transaction credits to an account.
    fn credit(&self, number: usize, account: u16) -> i128 {
        let credits = self.sheet.transactions[number].credits.iter();
        credits
            .filter(|credit| credit.account == account)
            .map(|credit| i128::from(credit.amount))
            .sum()
    }

    /// What a transaction debits from an account, if the part with that debit
    /// is in the view and good. "A failed part reserves nothing."
    fn good_debit(&self, number: usize, account: u16) -> i128 {
        let instance = self.sheet.instance_of(account);
        if !self.parts[number].iter().any(|part| part.instance == instance && part.good) {
            return 0;
        }
        let debits = self.sheet.transactions[number].debits.iter();
        debits.filter(|debit| debit.account == account).map(|debit| i128::from(debit.amount)).sum()
    }
}

// ---------------------------------------------------------- Operations

/// The registers after a contract's operations, "each seeing the earlier
/// ones". `None` if one of them does not pass.
fn operate(registers: &[u32], operations: &[Operation]) -> Option<Vec<u32>> {
    let mut registers = registers.to_vec();
    for Operation { code, register, value } in operations {
        let register = registers.get_mut(usize::from(*register))?;
        *register = match code {
            0 => (*register == *value).then_some(*register)?,
            1 => (*register >= *value).then_some(*register)?,
            2 => *value,
            // "A sum above 2^32 − 1 or a difference below 0 does not pass."
            3 => register.checked_add(*value)?,
            4 => register.checked_sub(*value)?,
            _ => return None,
        };
    }
    Some(registers)
}
