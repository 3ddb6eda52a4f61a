// The library's calls, and the caller's buffers.

use crate::case::Case;

#[link(name = "bench", kind = "static")]
extern "C" {
    fn bench_log(
        ranks: *const u32,
        ranks_len: usize,
        m: u16,
        blocks: u16,
        order: *mut u16,
        order_len: usize,
    ) -> usize;
    fn bench_settle(
        sheet: *const u8,
        sheet_len: usize,
        ranks: *const u32,
        ranks_len: usize,
        cites: *const u16,
        cites_len: usize,
        good: *const u8,
        good_len: usize,
        m: u16,
        a: u16,
        g: u16,
        t: u16,
        places: u16,
        counts: *mut u32,
        counts_len: usize,
        table: *mut u8,
        table_len: usize,
        order: *mut u16,
        order_len: usize,
        which: u16,
    ) -> u64;
}

pub struct Buffers {
    pub counts: Vec<u32>,
    pub table: Vec<u8>,
    pub order: Vec<u16>,
}

impl Buffers {
    pub fn new(case: &Case) -> Buffers {
        let t = case.transactions.len();
        Buffers {
            counts: vec![7; 2 * t],
            table: vec![7; t],
            order: vec![7; 128 * case.m],
        }
    }

    pub fn log(&mut self, case: &Case, blocks: usize) -> usize {
        unsafe {
            bench_log(
                case.ranks.as_ptr(),
                case.ranks.len(),
                case.m as u16,
                blocks as u16,
                self.order.as_mut_ptr(),
                self.order.len(),
            )
        }
    }

    pub fn settle(&mut self, case: &Case, places: usize, which: u16) -> u64 {
        unsafe {
            bench_settle(
                case.sheet.as_ptr(),
                case.sheet.len(),
                case.ranks.as_ptr(),
                case.ranks.len(),
                case.cites.as_ptr(),
                case.cites.len(),
                case.good.as_ptr(),
                case.good.len(),
                case.m as u16,
                case.a as u16,
                case.g as u16,
                case.transactions.len() as u16,
                places as u16,
                self.counts.as_mut_ptr(),
                self.counts.len(),
                self.table.as_mut_ptr(),
                self.table.len(),
                self.order.as_mut_ptr(),
                self.order.len(),
                which,
            )
        }
    }
}
