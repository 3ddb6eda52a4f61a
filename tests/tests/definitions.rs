//! The rules once more, with nothing kept: for tiny runs every outcome is
//! worked out from the logs each time it is asked for, so that the memo and
//! the order of judging in the engine are checked against the bare text.

use crosscheck::engine::{reading, Block, Ledger, Logs, Sheet, Status};
use crosscheck::generate::random::Random;
use crosscheck::generate::{self, Size};

/// A citation: instance, sequence number, list place.
type Citation = (usize, usize, usize);

/// A view as the set of its citations and the set of its whole blocks.
struct View {
    citations: Vec<Citation>,
    blocks: Vec<(usize, usize)>,
}

struct Text<'a> {
    sheet: &'a Sheet,
    logs: &'a Logs,
}

impl Text<'_> {
    fn block(&self, instance: usize, number: usize) -> &Block {
        self.logs.block(instance, number).expect("an accepted block")
    }

    fn cited(&self, (instance, number, place): Citation) -> usize {
        self.block(instance, number).citations[place].into()
    }

    /// The first blocks of each instance, and the citations in them.
    fn view(&self, counts: &[usize]) -> View {
        let mut view = View { citations: Vec::new(), blocks: Vec::new() };
        for (instance, count) in counts.iter().enumerate() {
            for number in 1..=*count {
                view.blocks.push((instance, number));
                let places = self.block(instance, number).citations.len();
                view.citations.extend((0..places).map(|place| (instance, number, place)));
            }
        }
        view
    }

    fn full_view(&self) -> View {
        let counts: Vec<usize> =
            (0..self.sheet.instances()).map(|i| self.logs.of(i).len()).collect();
        self.view(&counts)
    }

    fn view_of(&self, (instance, number, place): Citation) -> View {
        let cut = self.block(instance, number).cut;
        let counts: Vec<usize> = (0..self.sheet.instances())
            .map(|j| if j == instance { number - 1 } else { cut[j].into() })
            .collect();
        let mut view = self.view(&counts);
        view.citations.extend((0..place).map(|earlier| (instance, number, earlier)));
        view
    }

    /// Part outcome, by way of everything it rests on.
    fn good(&self, citation: Citation) -> bool {
        let view = self.view_of(citation);
        let judged = self.judged(&view);
        let part = self.sheet.part(self.cited(citation), citation.0);
        part.iter().all(|debit| {
            let (free, _) = self.amounts(&view, &judged, debit.account);
            i128::from(debit.amount) <= free
        })
    }

    /// The outcome of every citation in a view.
    fn judged(&self, view: &View) -> Vec<(Citation, bool)> {
        view.citations.iter().map(|citation| (*citation, self.good(*citation))).collect()
    }

    /// The global log: a block is in it if it is below the bar, the least of
    /// what each instance's last rank gives. Request 04: an instance without a
    /// block in the view counts as having last rank 0.
    fn log(&self, view: &View) -> Vec<(usize, usize)> {
        let rank =
            |&(instance, number): &(usize, usize)| u64::from(self.block(instance, number).rank);
        let pair = |block: &(usize, usize)| rank(block) * 16 + block.0 as u64;
        let last = |instance: usize| {
            let own = view.blocks.iter().filter(|block| block.0 == instance);
            own.map(rank).max().unwrap_or(0)
        };
        let bars = (0..self.sheet.instances()).map(|i| (last(i) + 1) * 16 + i as u64);
        let bars: Vec<u64> = bars.collect();
        let mut log = view.blocks.clone();
        log.retain(|block| bars.iter().all(|bar| pair(block) < *bar));
        log.sort_by_key(pair);
        log
    }

    /// Settlements and registers of a view.
    fn settled(&self, view: &View, judged: &[(Citation, bool)]) -> (Vec<Status>, Vec<u32>) {
        let log = self.log(view);
        let mut registers = vec![0; self.sheet.head.g.into()];
        let mut settled = vec![Status::Open; self.sheet.transactions.len()];
        let mut contracts = Vec::new();
        for (number, transaction) in self.sheet.transactions.iter().enumerate() {
            let parts: Vec<&(Citation, bool)> =
                judged.iter().filter(|(citation, _)| self.cited(*citation) == number).collect();
            let complete = parts.len() == self.sheet.parts(number);
            let all_good = parts.iter().all(|(_, good)| *good);
            if !transaction.is_contract() {
                settled[number] = match (all_good, complete) {
                    (false, _) => Status::Returned,
                    (true, true) => Status::Paid,
                    (true, false) => Status::Open,
                };
                continue;
            }
            // Where its citations stand in the log; all must stand there.
            let place =
                |(i, n, p): Citation| log.iter().position(|b| *b == (i, n)).map(|at| (at, p));
            let places: Option<Vec<_>> =
                parts.iter().map(|(citation, _)| place(*citation)).collect();
            if let (Some(places), true) = (places, complete) {
                contracts.push((places.into_iter().max(), number, all_good));
            }
        }
        contracts.sort();
        for (_, number, all_good) in contracts {
            let before = registers.clone();
            let passed = self.sheet.transactions[number].operations.iter().all(|operation| {
                let register = &mut registers[usize::from(operation.register)];
                let (now, value) = (i128::from(*register), i128::from(operation.value));
                let (passes, then) = match operation.code {
                    0 => (now == value, now),
                    1 => (now >= value, now),
                    2 => (true, value),
                    3 => (now + value < 1 << 32, now + value),
                    _ => (now >= value, now - value),
                };
                *register = then as u32;
                passes
            });
            if passed && all_good {
                settled[number] = Status::Paid;
            } else {
                settled[number] = Status::Returned;
                registers = before;
            }
        }
        (settled, registers)
    }

    /// Free and held of an account in a view.
    fn amounts(&self, view: &View, judged: &[(Citation, bool)], account: u16) -> (i128, i128) {
        let (settled, _) = self.settled(view, judged);
        let mut free = i128::from(self.sheet.starts[usize::from(account)]);
        let mut held = 0;
        for (number, transaction) in self.sheet.transactions.iter().enumerate() {
            for credit in transaction.credits.iter().filter(|credit| credit.account == account) {
                if settled[number] == Status::Paid {
                    free += i128::from(credit.amount);
                }
            }
        }
        for (citation, good) in judged.iter().filter(|(_, good)| *good) {
            let status = settled[self.cited(*citation)];
            let part = self.sheet.part(self.cited(*citation), citation.0);
            for debit in part.iter().filter(|debit| debit.account == account && *good) {
                if status != Status::Returned {
                    free -= i128::from(debit.amount);
                }
                if status == Status::Open {
                    held += i128::from(debit.amount);
                }
            }
        }
        (free, held)
    }
}

#[test]
fn the_engine_agrees_with_the_bare_rules() {
    let mut compared = 0;
    for seed in 0..1_500 {
        let run = generate::run(&mut Random::new(seed), Size::Tiny, 10);
        let logs = run.logs();
        if logs.all().map(|block| block.citations.len()).sum::<usize>() > 14 {
            continue;
        }
        compared += 1;
        let mut ledger = Ledger::new(run.sheet.clone());
        for block in &run.offers {
            ledger.offer_values(block);
        }
        compare(&run.sheet, &ledger, seed);
        assert!(reading(&run.bytes()).ends_with(format!("share {}\n", ledger.share()).as_bytes()));
    }
    assert!(compared > 1_000, "{compared} runs compared");
}

fn compare(sheet: &Sheet, ledger: &Ledger, seed: u64) {
    let text = Text { sheet, logs: ledger.logs() };
    let view = text.full_view();
    let judged = text.judged(&view);
    for ((instance, number, place), good) in &judged {
        let outcome = ledger.outcomes().of(*instance)[number - 1][*place];
        assert_eq!(outcome, *good, "seed {seed}: {instance} {number} {place}");
    }
    let (settled, registers) = text.settled(&view, &judged);
    assert_eq!(ledger.settlements(), settled, "seed {seed}");
    assert_eq!(ledger.registers(), registers, "seed {seed}");
    for (number, account) in ledger.accounts().iter().enumerate() {
        let (free, held) = text.amounts(&view, &judged, number as u16);
        assert_eq!((account.free as i128, account.held as i128), (free, held), "seed {seed}");
    }
    let log: Vec<(usize, usize)> = ledger
        .log()
        .iter()
        .map(|(instance, number)| (usize::from(*instance), usize::from(*number)))
        .collect();
    assert_eq!(log, text.log(&view), "seed {seed}");
}
