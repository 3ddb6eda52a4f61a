// A full case: a sheet, ranks, citations and part outcomes, as values and in the library's cells.

pub const NONE: u16 = 65535;

// A small generator, so that every run times the same case.
pub struct Random(pub u64);

impl Random {
    pub fn below(&mut self, n: u64) -> u64 {
        self.0 = self
            .0
            .wrapping_mul(6364136223846793005)
            .wrapping_add(1442695040888963407);
        (self.0 >> 33) % n
    }
}

pub struct Transaction {
    pub contract: bool,
    pub debits: Vec<(usize, u32)>,
    pub credits: Vec<(usize, u32)>,
    pub operations: Vec<(u8, u8, u32)>,
}

pub struct Case {
    pub m: usize,
    pub a: usize,
    pub g: usize,
    pub transactions: Vec<Transaction>,
    pub sheet: Vec<u8>,
    pub ranks: Vec<u32>,
    pub cites: Vec<u16>,
    pub good: Vec<u8>,
}

// Debits on four accounts, one credit for their sum, and operations of which nearly all pass.
fn transaction(r: &mut Random, a: usize, g: usize, contract: bool) -> Transaction {
    let mut debits: Vec<(usize, u32)> = Vec::new();
    while debits.len() < 4 {
        let k = r.below(a as u64) as usize;
        if debits.iter().all(|d| d.0 != k) {
            debits.push((k, 1 + r.below(50) as u32));
        }
    }
    let total = debits.iter().map(|d| d.1).sum();
    let credits = vec![(r.below(a as u64) as usize, total)];
    let mut operations = Vec::new();
    if contract {
        for _ in 0..r.below(9) {
            let code = if r.below(20) == 0 {
                0
            } else {
                1 + r.below(4) as u8
            };
            let value = if code == 1 { 0 } else { r.below(3) as u32 };
            operations.push((code, r.below(g as u64) as u8, value));
        }
    }
    Transaction {
        contract,
        debits,
        credits,
        operations,
    }
}

fn body(t: &Transaction) -> Vec<u8> {
    let mut b = vec![
        t.contract as u8,
        t.debits.len() as u8,
        t.credits.len() as u8,
        t.operations.len() as u8,
    ];
    for &(k, n) in t.debits.iter().chain(&t.credits) {
        b.extend((k as u16).to_le_bytes());
        b.extend(n.to_le_bytes());
    }
    for &(code, register, value) in &t.operations {
        b.extend([code, register]);
        b.extend(value.to_le_bytes());
    }
    b
}

impl Case {
    // `present` of 100 citations are there; `failing` in 1,000 parts failed; `apart` places between citations.
    pub fn new(
        r: &mut Random,
        m: usize,
        t: usize,
        contracts: bool,
        present: u64,
        failing: u64,
        apart: u64,
    ) -> Case {
        let (a, g) = (1024, 64);
        let transactions: Vec<Transaction> = (0..t)
            .map(|x| transaction(r, a, 8, contracts && x % 2 == 1))
            .collect();
        let mut sheet = Vec::new();
        for _ in 0..a {
            sheet.extend(1_000_000u64.to_le_bytes());
        }
        for x in &transactions {
            let mut slot = body(x);
            slot.resize(100, 0);
            sheet.extend(slot);
        }
        let mut ranks = vec![0; 128 * m];
        for i in 0..m {
            for n in 0..128 {
                ranks[128 * i + n] =
                    (3 * n + i % 5 + 1) as u32 + if n == 0 { 0 } else { r.below(3) as u32 };
            }
        }
        let mut case = Case {
            m,
            a,
            g,
            transactions,
            sheet,
            ranks,
            cites: vec![NONE; 4096 * m],
            good: vec![0; 4096 * m],
        };
        for j in 0..m {
            let mut p = 0;
            for x in 0..t {
                if p < 4096 && case.has_part(x, j) && r.below(100) < present {
                    case.cites[4096 * j + p] = x as u16;
                    case.good[4096 * j + p] = (r.below(1000) >= failing) as u8;
                    p += 1 + r.below(apart) as usize;
                }
            }
        }
        case
    }

    pub fn has_part(&self, x: usize, j: usize) -> bool {
        self.transactions[x]
            .debits
            .iter()
            .any(|d| d.0 % self.m == j)
    }
}
