// Times two layers of the library on the largest case, and compares what they give with a plain computation of the same.
//
//     bash tests/staticlib.sh bench
//     rustc --edition 2021 -O docs/src/bench_layers/main.rs -L target/staticlib -l static=bench -o target/bench_layers
//     target/bench_layers
//
// (a) the global log of 16 × 128 blocks; (b) one settlement of a full view with 1,024 transactions, half of them contracts.
// The plain computation (plain.rs) follows document 01 and shares nothing with the library.

mod calls;
mod case;
mod plain;

use calls::Buffers;
use case::{Case, Random, NONE};
use std::time::Instant;

// Panics where the library and the plain computation differ.
fn same(case: &Case, places: usize) {
    let mut buffers = Buffers::new(case);
    let log = case.log(places / 32);
    let n = buffers.log(case, places / 32);
    assert!(
        n == log.len() && buffers.order[..n] == log[..],
        "the log differs"
    );
    let (status, registers) = case.settlement(places);
    for which in 0..case.g {
        let r = buffers.settle(case, places, which as u16);
        assert_eq!(
            r,
            (1 << 32) + registers[which] as u64,
            "register {which} differs"
        );
    }
    assert!(buffers.table == status, "a status differs");
    assert!(
        buffers.order[..n] == log[..],
        "the settlement's log differs"
    );
}

// Best and median of the runs, in microseconds.
fn timed(runs: usize, mut call: impl FnMut()) -> (f64, f64) {
    let mut times: Vec<f64> = (0..runs)
        .map(|_| {
            let start = Instant::now();
            call();
            start.elapsed().as_secs_f64() * 1e6
        })
        .collect();
    times.sort_by(f64::total_cmp);
    (times[0], times[runs / 2])
}

fn main() {
    let mut r = Random(1);
    for _ in 0..60 {
        let m = 1 + r.below(16) as usize;
        let (contracts, apart, places) = (r.below(4) > 0, 1 + r.below(6), r.below(4097) as usize);
        same(
            &Case::new(&mut r, m, 1024, contracts, 95, 30, apart),
            places,
        );
    }
    println!("60 random views agree");

    let full = Case::new(&mut r, 16, 1024, true, 100, 0, 1);
    let spread = Case::new(&mut r, 16, 1024, true, 100, 0, 26);
    for (name, case) in [
        ("32 citations a block as far as they go", &full),
        ("citations spread over the blocks", &spread),
    ] {
        same(case, 4096);
        let mut buffers = Buffers::new(case);
        let cited = case.cites.iter().filter(|&&x| x != NONE).count();
        let (status, _) = case.settlement(4096);
        let settled = status.iter().filter(|&&s| s != 0).count();
        println!(
            "16 x 128 blocks, 1024 transactions, {cited} citations ({name}), {settled} settled"
        );
        let (best, median) = timed(2000, || {
            std::hint::black_box(buffers.log(case, 128));
        });
        println!("  global log          best {best:8.1} us   median {median:8.1} us");
        let (best, median) = timed(2000, || {
            std::hint::black_box(buffers.settle(case, 4096, 0));
        });
        println!("  one settlement      best {best:8.1} us   median {median:8.1} us");
        let (best, median) = timed(50, || {
            std::hint::black_box(case.settlement(4096));
        });
        println!("  plain computation   best {best:8.1} us   median {median:8.1} us");
    }

    let mut apart = full;
    for (cell, rank) in apart.ranks.iter_mut().enumerate() {
        *rank = (16 * (1_000 * (cell % 128) + r.below(1_000) as usize) + cell / 128 + 1) as u32;
    }
    same(&apart, 4096);
    let mut buffers = Buffers::new(&apart);
    println!("16 x 128 blocks, no two of the same rank");
    let (best, median) = timed(2000, || {
        std::hint::black_box(buffers.log(&apart, 128));
    });
    println!("  global log          best {best:8.1} us   median {median:8.1} us");
}
