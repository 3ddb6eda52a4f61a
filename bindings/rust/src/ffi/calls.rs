// Written by `python3 bindings/boundary.py --write`; the gate compares.
//! The boundary's calls over slices: their declarations, and for each a safe function.
//!
//! A slice goes over as a pointer and a length. The library asks nothing of its arguments but that the slices are valid and
//! that one which it writes overlaps no other; references have both of themselves. Contents and lengths are unconstrained:
//! every call answers on any of them.

#![allow(unsafe_code)]
#![allow(clippy::too_many_arguments)]

extern "C" {
    fn rugxeni_frame(
        bytes: *const u8,
        bytes_len: usize,
        at: usize,
        told: *mut u64,
        told_len: usize,
    ) -> u16;
    fn rugxeni_load(
        numbers: *mut u16,
        numbers_len: usize,
        run: *const u8,
        run_len: usize,
        at: usize,
        sheet: *mut u8,
        sheet_len: usize,
        told: *mut u64,
        told_len: usize,
    ) -> u16;
    fn rugxeni_offer_frame(
        numbers: *mut u16,
        numbers_len: usize,
        sheet: *const u8,
        sheet_len: usize,
        ranks: *mut u32,
        ranks_len: usize,
        cuts: *mut u16,
        cuts_len: usize,
        cites: *mut u16,
        cites_len: usize,
        good: *mut u8,
        good_len: usize,
        counts: *mut u32,
        counts_len: usize,
        table: *mut u8,
        table_len: usize,
        order: *mut u16,
        order_len: usize,
        bytes: *const u8,
        bytes_len: usize,
        at: usize,
        told: *mut u64,
        told_len: usize,
    ) -> u16;
    fn rugxeni_offer_block(
        numbers: *mut u16,
        numbers_len: usize,
        sheet: *const u8,
        sheet_len: usize,
        ranks: *mut u32,
        ranks_len: usize,
        cuts: *mut u16,
        cuts_len: usize,
        cites: *mut u16,
        cites_len: usize,
        good: *mut u8,
        good_len: usize,
        counts: *mut u32,
        counts_len: usize,
        table: *mut u8,
        table_len: usize,
        order: *mut u16,
        order_len: usize,
        instance: u16,
        sequence: u16,
        rank: u32,
        cut: *const u16,
        cut_len: usize,
        citations: *const u16,
        citations_len: usize,
        told: *mut u64,
        told_len: usize,
    ) -> u16;
    fn rugxeni_log(
        numbers: *const u16,
        numbers_len: usize,
        ranks: *const u32,
        ranks_len: usize,
        instances: *mut u16,
        instances_len: usize,
        sequences: *mut u16,
        sequences_len: usize,
        told: *mut u64,
        told_len: usize,
    ) -> u16;
    fn rugxeni_settlements(
        numbers: *const u16,
        numbers_len: usize,
        sheet: *const u8,
        sheet_len: usize,
        ranks: *const u32,
        ranks_len: usize,
        cites: *const u16,
        cites_len: usize,
        good: *const u8,
        good_len: usize,
        counts: *mut u32,
        counts_len: usize,
        table: *mut u8,
        table_len: usize,
        order: *mut u16,
        order_len: usize,
        statuses: *mut u8,
        statuses_len: usize,
        told: *mut u64,
        told_len: usize,
    ) -> u16;
    fn rugxeni_accounts(
        numbers: *const u16,
        numbers_len: usize,
        sheet: *const u8,
        sheet_len: usize,
        ranks: *const u32,
        ranks_len: usize,
        cites: *const u16,
        cites_len: usize,
        good: *const u8,
        good_len: usize,
        counts: *mut u32,
        counts_len: usize,
        table: *mut u8,
        table_len: usize,
        order: *mut u16,
        order_len: usize,
        free: *mut u64,
        free_len: usize,
        held: *mut u64,
        held_len: usize,
        told: *mut u64,
        told_len: usize,
    ) -> u16;
    fn rugxeni_registers(
        numbers: *const u16,
        numbers_len: usize,
        sheet: *const u8,
        sheet_len: usize,
        ranks: *const u32,
        ranks_len: usize,
        cites: *const u16,
        cites_len: usize,
        good: *const u8,
        good_len: usize,
        counts: *mut u32,
        counts_len: usize,
        table: *mut u8,
        table_len: usize,
        order: *mut u16,
        order_len: usize,
        values: *mut u32,
        values_len: usize,
        told: *mut u64,
        told_len: usize,
    ) -> u16;
    fn rugxeni_share(
        numbers: *const u16,
        numbers_len: usize,
        sheet: *const u8,
        sheet_len: usize,
        ranks: *const u32,
        ranks_len: usize,
        cites: *const u16,
        cites_len: usize,
        good: *const u8,
        good_len: usize,
        counts: *mut u32,
        counts_len: usize,
        table: *mut u8,
        table_len: usize,
        order: *mut u16,
        order_len: usize,
        told: *mut u64,
        told_len: usize,
    ) -> u16;
    fn rugxeni_report(
        run: *const u8,
        run_len: usize,
        sheet: *mut u8,
        sheet_len: usize,
        ranks: *mut u32,
        ranks_len: usize,
        cuts: *mut u16,
        cuts_len: usize,
        cites: *mut u16,
        cites_len: usize,
        good: *mut u8,
        good_len: usize,
        counts: *mut u32,
        counts_len: usize,
        table: *mut u8,
        table_len: usize,
        order: *mut u16,
        order_len: usize,
        out: *mut u8,
        out_len: usize,
        told: *mut u64,
        told_len: usize,
    ) -> u16;
    fn rugxeni_write_header(
        numbers: *const u16,
        numbers_len: usize,
        m: u16,
        a: u16,
        g: u16,
        t: u16,
        out: *mut u8,
        out_len: usize,
        told: *mut u64,
        told_len: usize,
    ) -> u16;
    fn rugxeni_write_balances(
        numbers: *const u16,
        numbers_len: usize,
        balances: *const u64,
        balances_len: usize,
        out: *mut u8,
        out_len: usize,
        told: *mut u64,
        told_len: usize,
    ) -> u16;
    fn rugxeni_write_transaction(
        numbers: *const u16,
        numbers_len: usize,
        kind: u8,
        d: u8,
        c: u8,
        o: u8,
        payers: *const u16,
        payers_len: usize,
        debits: *const u32,
        debits_len: usize,
        payees: *const u16,
        payees_len: usize,
        credits: *const u32,
        credits_len: usize,
        codes: *const u8,
        codes_len: usize,
        registers: *const u8,
        registers_len: usize,
        values: *const u32,
        values_len: usize,
        out: *mut u8,
        out_len: usize,
        told: *mut u64,
        told_len: usize,
    ) -> u16;
    fn rugxeni_write_block(
        numbers: *const u16,
        numbers_len: usize,
        instance: u16,
        sequence: u16,
        rank: u32,
        count: u16,
        cut: *const u16,
        cut_len: usize,
        citations: *const u16,
        citations_len: usize,
        out: *mut u8,
        out_len: usize,
        told: *mut u64,
        told_len: usize,
    ) -> u16;
}

/// The frame at the offset `at`. Returns 0, and in `told` where the next frame begins and the frame's kind; 1 or 2, and
/// the offset, where no whole frame stands there; or 255 where no byte is left.
///
/// Least lengths: `bytes` 0; `told` 0: as much is told as fits.
pub fn frame(bytes: &[u8], at: usize, told: &mut [u64]) -> u16 {
    // SAFETY: each pair is a live reference's pointer and length, and the `&mut` ones overlap no other.
    unsafe {
        rugxeni_frame(
            bytes.as_ptr(),
            bytes.len(),
            at,
            told.as_mut_ptr(),
            told.len(),
        )
    }
}

/// The frame at the offset `at` of a run. Returns 0, and in `told` where the next frame begins; a refusal's number, and
/// its place; or 255 once the sheet is complete.
///
/// Least lengths: `numbers` 22; `run` 0; `sheet` 8a + 100t once the header is known, 0 before; `told` 0: as much is
/// told as fits.
pub fn load(numbers: &mut [u16], run: &[u8], at: usize, sheet: &mut [u8], told: &mut [u64]) -> u16 {
    // SAFETY: each pair is a live reference's pointer and length, and the `&mut` ones overlap no other.
    unsafe {
        rugxeni_load(
            numbers.as_mut_ptr(),
            numbers.len(),
            run.as_ptr(),
            run.len(),
            at,
            sheet.as_mut_ptr(),
            sheet.len(),
            told.as_mut_ptr(),
            told.len(),
        )
    }
}

/// The frame at the offset `at` is offered. Returns 0 where it is accepted, a refusal's number, with its place in
/// `told`, or 255 where no byte is left.
///
/// Least lengths: `numbers` 22; `sheet` 8a + 100t; `ranks` 128m; `cuts` 2048m; `cites` 4096m; `good` 4096m; `counts`
/// 2t; `table` t; `order` 128m; `bytes` 0; `told` 0: as much is told as fits.
pub fn offer_frame(
    numbers: &mut [u16],
    sheet: &[u8],
    ranks: &mut [u32],
    cuts: &mut [u16],
    cites: &mut [u16],
    good: &mut [u8],
    counts: &mut [u32],
    table: &mut [u8],
    order: &mut [u16],
    bytes: &[u8],
    at: usize,
    told: &mut [u64],
) -> u16 {
    // SAFETY: each pair is a live reference's pointer and length, and the `&mut` ones overlap no other.
    unsafe {
        rugxeni_offer_frame(
            numbers.as_mut_ptr(),
            numbers.len(),
            sheet.as_ptr(),
            sheet.len(),
            ranks.as_mut_ptr(),
            ranks.len(),
            cuts.as_mut_ptr(),
            cuts.len(),
            cites.as_mut_ptr(),
            cites.len(),
            good.as_mut_ptr(),
            good.len(),
            counts.as_mut_ptr(),
            counts.len(),
            table.as_mut_ptr(),
            table.len(),
            order.as_mut_ptr(),
            order.len(),
            bytes.as_ptr(),
            bytes.len(),
            at,
            told.as_mut_ptr(),
            told.len(),
        )
    }
}

/// A block's values are offered, the cut as its first sixteen entries. Returns as for a frame.
///
/// Least lengths: `numbers` 22; `sheet` 8a + 100t; `ranks` 128m; `cuts` 2048m; `cites` 4096m; `good` 4096m; `counts`
/// 2t; `table` t; `order` 128m; `cut` 0: its first sixteen entries count, 0 where there are fewer; `citations` 0: more
/// than 32 are refusal 5; `told` 0: as much is told as fits.
pub fn offer_block(
    numbers: &mut [u16],
    sheet: &[u8],
    ranks: &mut [u32],
    cuts: &mut [u16],
    cites: &mut [u16],
    good: &mut [u8],
    counts: &mut [u32],
    table: &mut [u8],
    order: &mut [u16],
    instance: u16,
    sequence: u16,
    rank: u32,
    cut: &[u16],
    citations: &[u16],
    told: &mut [u64],
) -> u16 {
    // SAFETY: each pair is a live reference's pointer and length, and the `&mut` ones overlap no other.
    unsafe {
        rugxeni_offer_block(
            numbers.as_mut_ptr(),
            numbers.len(),
            sheet.as_ptr(),
            sheet.len(),
            ranks.as_mut_ptr(),
            ranks.len(),
            cuts.as_mut_ptr(),
            cuts.len(),
            cites.as_mut_ptr(),
            cites.len(),
            good.as_mut_ptr(),
            good.len(),
            counts.as_mut_ptr(),
            counts.len(),
            table.as_mut_ptr(),
            table.len(),
            order.as_mut_ptr(),
            order.len(),
            instance,
            sequence,
            rank,
            cut.as_ptr(),
            cut.len(),
            citations.as_ptr(),
            citations.len(),
            told.as_mut_ptr(),
            told.len(),
        )
    }
}

/// The global log, as instances and sequence numbers; its length is the second number told.
///
/// A reading of the full view. The call returns 0, or a refusal's number with its place in `told`.
///
/// Least lengths: `numbers` 22; `ranks` 128m; `instances` one place for each block in the log, at most 2,048;
/// `sequences` one place for each block in the log, at most 2,048; `told` 0: as much is told as fits.
pub fn log(
    numbers: &[u16],
    ranks: &[u32],
    instances: &mut [u16],
    sequences: &mut [u16],
    told: &mut [u64],
) -> u16 {
    // SAFETY: each pair is a live reference's pointer and length, and the `&mut` ones overlap no other.
    unsafe {
        rugxeni_log(
            numbers.as_ptr(),
            numbers.len(),
            ranks.as_ptr(),
            ranks.len(),
            instances.as_mut_ptr(),
            instances.len(),
            sequences.as_mut_ptr(),
            sequences.len(),
            told.as_mut_ptr(),
            told.len(),
        )
    }
}

/// The settlement of every transaction: 0 open, 1 paid, 2 returned.
///
/// A reading of the full view. The call returns 0, or a refusal's number with its place in `told`.
///
/// Least lengths: `numbers` 22; `sheet` 8a + 100t; `ranks` 128m; `cites` 4096m; `good` 4096m; `counts` 2t; `table` t;
/// `order` 128m; `statuses` t; `told` 0: as much is told as fits.
pub fn settlements(
    numbers: &[u16],
    sheet: &[u8],
    ranks: &[u32],
    cites: &[u16],
    good: &[u8],
    counts: &mut [u32],
    table: &mut [u8],
    order: &mut [u16],
    statuses: &mut [u8],
    told: &mut [u64],
) -> u16 {
    // SAFETY: each pair is a live reference's pointer and length, and the `&mut` ones overlap no other.
    unsafe {
        rugxeni_settlements(
            numbers.as_ptr(),
            numbers.len(),
            sheet.as_ptr(),
            sheet.len(),
            ranks.as_ptr(),
            ranks.len(),
            cites.as_ptr(),
            cites.len(),
            good.as_ptr(),
            good.len(),
            counts.as_mut_ptr(),
            counts.len(),
            table.as_mut_ptr(),
            table.len(),
            order.as_mut_ptr(),
            order.len(),
            statuses.as_mut_ptr(),
            statuses.len(),
            told.as_mut_ptr(),
            told.len(),
        )
    }
}

/// The free and the held amount of every account.
///
/// A reading of the full view. The call returns 0, or a refusal's number with its place in `told`.
///
/// Least lengths: `numbers` 22; `sheet` 8a + 100t; `ranks` 128m; `cites` 4096m; `good` 4096m; `counts` 2t; `table` t;
/// `order` 128m; `free` a; `held` a; `told` 0: as much is told as fits.
pub fn accounts(
    numbers: &[u16],
    sheet: &[u8],
    ranks: &[u32],
    cites: &[u16],
    good: &[u8],
    counts: &mut [u32],
    table: &mut [u8],
    order: &mut [u16],
    free: &mut [u64],
    held: &mut [u64],
    told: &mut [u64],
) -> u16 {
    // SAFETY: each pair is a live reference's pointer and length, and the `&mut` ones overlap no other.
    unsafe {
        rugxeni_accounts(
            numbers.as_ptr(),
            numbers.len(),
            sheet.as_ptr(),
            sheet.len(),
            ranks.as_ptr(),
            ranks.len(),
            cites.as_ptr(),
            cites.len(),
            good.as_ptr(),
            good.len(),
            counts.as_mut_ptr(),
            counts.len(),
            table.as_mut_ptr(),
            table.len(),
            order.as_mut_ptr(),
            order.len(),
            free.as_mut_ptr(),
            free.len(),
            held.as_mut_ptr(),
            held.len(),
            told.as_mut_ptr(),
            told.len(),
        )
    }
}

/// The registers.
///
/// A reading of the full view. The call returns 0, or a refusal's number with its place in `told`.
///
/// Least lengths: `numbers` 22; `sheet` 8a + 100t; `ranks` 128m; `cites` 4096m; `good` 4096m; `counts` 2t; `table` t;
/// `order` 128m; `values` g; `told` 0: as much is told as fits.
pub fn registers(
    numbers: &[u16],
    sheet: &[u8],
    ranks: &[u32],
    cites: &[u16],
    good: &[u8],
    counts: &mut [u32],
    table: &mut [u8],
    order: &mut [u16],
    values: &mut [u32],
    told: &mut [u64],
) -> u16 {
    // SAFETY: each pair is a live reference's pointer and length, and the `&mut` ones overlap no other.
    unsafe {
        rugxeni_registers(
            numbers.as_ptr(),
            numbers.len(),
            sheet.as_ptr(),
            sheet.len(),
            ranks.as_ptr(),
            ranks.len(),
            cites.as_ptr(),
            cites.len(),
            good.as_ptr(),
            good.len(),
            counts.as_mut_ptr(),
            counts.len(),
            table.as_mut_ptr(),
            table.len(),
            order.as_mut_ptr(),
            order.len(),
            values.as_mut_ptr(),
            values.len(),
            told.as_mut_ptr(),
            told.len(),
        )
    }
}

/// The share as the second number told: settled transactions in thousandths of all, to the nearest and a tie to the
/// even figure; 1000 where there are none.
///
/// A reading of the full view. The call returns 0, or a refusal's number with its place in `told`.
///
/// Least lengths: `numbers` 22; `sheet` 8a + 100t; `ranks` 128m; `cites` 4096m; `good` 4096m; `counts` 2t; `table` t;
/// `order` 128m; `told` 0: as much is told as fits.
pub fn share(
    numbers: &[u16],
    sheet: &[u8],
    ranks: &[u32],
    cites: &[u16],
    good: &[u8],
    counts: &mut [u32],
    table: &mut [u8],
    order: &mut [u16],
    told: &mut [u64],
) -> u16 {
    // SAFETY: each pair is a live reference's pointer and length, and the `&mut` ones overlap no other.
    unsafe {
        rugxeni_share(
            numbers.as_ptr(),
            numbers.len(),
            sheet.as_ptr(),
            sheet.len(),
            ranks.as_ptr(),
            ranks.len(),
            cites.as_ptr(),
            cites.len(),
            good.as_ptr(),
            good.len(),
            counts.as_mut_ptr(),
            counts.len(),
            table.as_mut_ptr(),
            table.len(),
            order.as_mut_ptr(),
            order.len(),
            told.as_mut_ptr(),
            told.len(),
        )
    }
}

/// What `readrun` prints of a run, written to the front of `out`. Returns 0, and in `told` the text's length; or 16,
/// and the least length of the first short buffer, nothing being written. The buffers are as long as the largest sheet
/// needs them, and `out` has 262,144 places. They hold a ledger of the call's own: whoever keeps a ledger lends others.
///
/// Least lengths: `run` 0; `sheet` 110,592; `ranks` 2,048; `cuts` 32,768; `cites` 65,536; `good` 65,536; `counts`
/// 2,048; `table` 1,024; `order` 2,048; `out` 262,144; `told` 0: as much is told as fits.
pub fn report(
    run: &[u8],
    sheet: &mut [u8],
    ranks: &mut [u32],
    cuts: &mut [u16],
    cites: &mut [u16],
    good: &mut [u8],
    counts: &mut [u32],
    table: &mut [u8],
    order: &mut [u16],
    out: &mut [u8],
    told: &mut [u64],
) -> u16 {
    // SAFETY: each pair is a live reference's pointer and length, and the `&mut` ones overlap no other.
    unsafe {
        rugxeni_report(
            run.as_ptr(),
            run.len(),
            sheet.as_mut_ptr(),
            sheet.len(),
            ranks.as_mut_ptr(),
            ranks.len(),
            cuts.as_mut_ptr(),
            cuts.len(),
            cites.as_mut_ptr(),
            cites.len(),
            good.as_mut_ptr(),
            good.len(),
            counts.as_mut_ptr(),
            counts.len(),
            table.as_mut_ptr(),
            table.len(),
            order.as_mut_ptr(),
            order.len(),
            out.as_mut_ptr(),
            out.len(),
            told.as_mut_ptr(),
            told.len(),
        )
    }
}

/// The header: instances, accounts, registers, transactions.
///
/// Frames, written. The numbers say the sheet so far: a frame of the sheet that was written is loaded before the next
/// one is. Each call returns 0, and in `told` how many bytes it wrote to the front of `out`; or a refusal's number with
/// its place, nothing being written.
///
/// Least lengths: `numbers` 22; `out` the frame's bytes: 6 and its body, at most 8,198; `told` 0: as much is told as
/// fits.
pub fn write_header(
    numbers: &[u16],
    m: u16,
    a: u16,
    g: u16,
    t: u16,
    out: &mut [u8],
    told: &mut [u64],
) -> u16 {
    // SAFETY: each pair is a live reference's pointer and length, and the `&mut` ones overlap no other.
    unsafe {
        rugxeni_write_header(
            numbers.as_ptr(),
            numbers.len(),
            m,
            a,
            g,
            t,
            out.as_mut_ptr(),
            out.len(),
            told.as_mut_ptr(),
            told.len(),
        )
    }
}

/// The starting balances, one for each account.
///
/// Frames, written. The numbers say the sheet so far: a frame of the sheet that was written is loaded before the next
/// one is. Each call returns 0, and in `told` how many bytes it wrote to the front of `out`; or a refusal's number with
/// its place, nothing being written.
///
/// Least lengths: `numbers` 22; `balances` a, neither fewer nor more (refusal 4); `out` the frame's bytes: 6 and its
/// body, at most 8,198; `told` 0: as much is told as fits.
pub fn write_balances(numbers: &[u16], balances: &[u64], out: &mut [u8], told: &mut [u64]) -> u16 {
    // SAFETY: each pair is a live reference's pointer and length, and the `&mut` ones overlap no other.
    unsafe {
        rugxeni_write_balances(
            numbers.as_ptr(),
            numbers.len(),
            balances.as_ptr(),
            balances.len(),
            out.as_mut_ptr(),
            out.len(),
            told.as_mut_ptr(),
            told.len(),
        )
    }
}

/// A transaction: kind 0 payment or 1 contract; d debits and c credits, each as accounts and amounts; o operations, as
/// codes, registers and values.
///
/// Frames, written. The numbers say the sheet so far: a frame of the sheet that was written is loaded before the next
/// one is. Each call returns 0, and in `told` how many bytes it wrote to the front of `out`; or a refusal's number with
/// its place, nothing being written.
///
/// Least lengths: `numbers` 22; `payers` d, neither fewer nor more (refusal 4); `debits` d, neither fewer nor more
/// (refusal 4); `payees` c, neither fewer nor more (refusal 4); `credits` c, neither fewer nor more (refusal 4);
/// `codes` o, neither fewer nor more (refusal 4); `registers` o, neither fewer nor more (refusal 4); `values` o,
/// neither fewer nor more (refusal 4); `out` the frame's bytes: 6 and its body, at most 8,198; `told` 0: as much is
/// told as fits.
pub fn write_transaction(
    numbers: &[u16],
    kind: u8,
    d: u8,
    c: u8,
    o: u8,
    payers: &[u16],
    debits: &[u32],
    payees: &[u16],
    credits: &[u32],
    codes: &[u8],
    registers: &[u8],
    values: &[u32],
    out: &mut [u8],
    told: &mut [u64],
) -> u16 {
    // SAFETY: each pair is a live reference's pointer and length, and the `&mut` ones overlap no other.
    unsafe {
        rugxeni_write_transaction(
            numbers.as_ptr(),
            numbers.len(),
            kind,
            d,
            c,
            o,
            payers.as_ptr(),
            payers.len(),
            debits.as_ptr(),
            debits.len(),
            payees.as_ptr(),
            payees.len(),
            credits.as_ptr(),
            credits.len(),
            codes.as_ptr(),
            codes.len(),
            registers.as_ptr(),
            registers.len(),
            values.as_ptr(),
            values.len(),
            out.as_mut_ptr(),
            out.len(),
            told.as_mut_ptr(),
            told.len(),
        )
    }
}

/// A block with `count` citations, the cut as its first sixteen entries.
///
/// Frames, written. The numbers say the sheet so far: a frame of the sheet that was written is loaded before the next
/// one is. Each call returns 0, and in `told` how many bytes it wrote to the front of `out`; or a refusal's number with
/// its place, nothing being written.
///
/// Least lengths: `numbers` 22; `cut` 0: its first sixteen entries count, 0 where there are fewer; `citations` count,
/// neither fewer nor more (refusal 4); `out` the frame's bytes: 6 and its body, at most 8,198; `told` 0: as much is
/// told as fits.
pub fn write_block(
    numbers: &[u16],
    instance: u16,
    sequence: u16,
    rank: u32,
    count: u16,
    cut: &[u16],
    citations: &[u16],
    out: &mut [u8],
    told: &mut [u64],
) -> u16 {
    // SAFETY: each pair is a live reference's pointer and length, and the `&mut` ones overlap no other.
    unsafe {
        rugxeni_write_block(
            numbers.as_ptr(),
            numbers.len(),
            instance,
            sequence,
            rank,
            count,
            cut.as_ptr(),
            cut.len(),
            citations.as_ptr(),
            citations.len(),
            out.as_mut_ptr(),
            out.len(),
            told.as_mut_ptr(),
            told.len(),
        )
    }
}
