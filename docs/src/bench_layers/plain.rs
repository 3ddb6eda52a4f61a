// The plain computation of a log and a settlement, straight from document 01.

use crate::case::Case;

impl Case {
    fn parts(&self, x: usize) -> usize {
        (0..self.m).filter(|&j| self.has_part(x, j)).count()
    }

    // The blocks below the bar, ascending, as instance × 128 + index.
    pub fn log(&self, blocks: usize) -> Vec<u16> {
        let key = |b: usize| self.ranks[b] as u64 * 16 + (b / 128) as u64;
        if blocks == 0 {
            return Vec::new();
        }
        let bar = (0..self.m)
            .map(|i| key(128 * i + blocks - 1) + 16)
            .min()
            .unwrap_or(0);
        let mut log: Vec<usize> = (0..self.m)
            .flat_map(|i| (0..blocks).map(move |n| 128 * i + n))
            .filter(|&b| key(b) < bar)
            .collect();
        log.sort_by_key(|&b| key(b));
        log.into_iter().map(|b| b as u16).collect()
    }

    fn run(&self, x: usize, registers: &mut Vec<u32>) -> bool {
        let mut next = registers.clone();
        for &(code, i, value) in &self.transactions[x].operations {
            let cell = &mut next[i as usize];
            let after = match code {
                0 => (*cell == value).then_some(*cell),
                1 => (*cell >= value).then_some(*cell),
                2 => Some(value),
                3 => cell.checked_add(value),
                _ => cell.checked_sub(value),
            };
            match after {
                Some(v) => *cell = v,
                None => return false,
            }
        }
        *registers = next;
        true
    }

    // Statuses (0 open, 1 paid, 2 returned) and registers of the view of the first `places` places of each instance.
    pub fn settlement(&self, places: usize) -> (Vec<u8>, Vec<u32>) {
        let t = self.transactions.len();
        let mut status = vec![0; t];
        let mut registers = vec![0; self.g];
        let (mut seen, mut spoiled) = (vec![0; t], vec![0; t]);
        for b in self.log(places / 32) {
            let (j, n) = (b as usize / 128, b as usize % 128);
            for at in 4096 * j + 32 * n..4096 * j + 32 * n + 32 {
                let x = self.cites[at] as usize;
                if x >= t || !self.transactions[x].contract {
                    continue;
                }
                seen[x] += 1;
                spoiled[x] += (self.good[at] != 1) as usize;
                if seen[x] == self.parts(x) {
                    status[x] = if spoiled[x] == 0 && self.run(x, &mut registers) {
                        1
                    } else {
                        2
                    };
                }
            }
        }
        let (mut cited, mut failed) = (vec![0; t], vec![0; t]);
        for j in 0..self.m {
            for at in 4096 * j..4096 * j + places {
                let x = self.cites[at] as usize;
                if x < t {
                    cited[x] += 1;
                    failed[x] += (self.good[at] != 1) as usize;
                }
            }
        }
        for x in (0..t).filter(|&x| !self.transactions[x].contract) {
            status[x] = if failed[x] > 0 {
                2
            } else if cited[x] == self.parts(x) {
                1
            } else {
                0
            };
        }
        (status, registers)
    }
}
