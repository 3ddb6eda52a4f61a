//! Request 05, "Share to the nearest, half to even": the figure of every pair
//! of counts, and how often the generated runs hang on the rule.

use std::cmp::Reverse;
use std::collections::BTreeMap;
use std::ops::RangeInclusive;
use std::sync::LazyLock;

use crosscheck::engine::ledger::share;
use crosscheck::engine::reading;
use crosscheck::generate::random::Random;
use crosscheck::generate::{self, ties, Size};

/// As many transactions as a sheet can have.
const MOST_TRANSACTIONS: u32 = 1_024;
/// What is printed if all are settled, and "t 0 still prints 1000".
const WHOLE: u32 = 1_000;
/// So many larger pairs are tried, with two beside each.
const LARGER: usize = 4_000;
/// The runs that are counted.
const SEEDS: RangeInclusive<u64> = 1..=1_000;

/// How far a figure is from the thousandths of so many settled, times all.
fn distance(figure: u32, settled: u32, all: u32) -> u64 {
    let thousandths = u64::from(settled) * u64::from(WHOLE);
    thousandths.abs_diff(u64::from(figure) * u64::from(all))
}

/// "round to nearest, a tie to the even figure": of all figures the nearest,
/// of two that are equally near the even one.
fn by_the_request(settled: u32, all: u32) -> u32 {
    if all == 0 {
        return WHOLE;
    }
    let nearest = |figure: &u32| (distance(*figure, settled, all), figure % 2);
    (0..=WHOLE).min_by_key(nearest).expect("a figure")
}

/// The lower of two figures that are equally near, if there are two.
fn tie(settled: u32, all: u32) -> Option<u32> {
    let equally_near =
        |lower: &u32| distance(*lower, settled, all) == distance(lower + 1, settled, all);
    (0..WHOLE).find(equally_near).filter(|_| all > 0)
}

/// Every pair of counts that a run can have: settled, all.
fn pairs() -> impl Iterator<Item = (u32, u32)> {
    (0..=MOST_TRANSACTIONS).flat_map(|all| (0..=all).map(move |settled| (settled, all)))
}

#[test]
fn the_figures_of_the_request() {
    assert_eq!(share(1, 16), 62);
    assert_eq!(share(3, 16), 188);
    assert_eq!(share(0, 16), 0);
    assert_eq!(share(16, 16), 1000);
    assert_eq!(share(0, 0), 1000);
}

/// "The result is settled for every pair of counts."
#[test]
fn every_pair_is_rounded_by_the_request() {
    for (settled, all) in pairs() {
        assert_eq!(share(settled, all), by_the_request(settled, all), "{settled} of {all}");
    }
}

/// "None of 16 prints 0, all print 1000", and so it is with any t above 0.
#[test]
fn the_ends() {
    assert!((1..=MOST_TRANSACTIONS).all(|all| share(0, all) == 0));
    assert!((0..=MOST_TRANSACTIONS).all(|all| share(all, all) == WHOLE));
}

/// At ties too, since 1000 is even.
#[test]
fn settled_and_open_add_up() {
    for (settled, all) in pairs().filter(|(_, all)| *all > 0) {
        assert_eq!(share(settled, all) + share(all - settled, all), WHOLE, "{settled} of {all}");
    }
}

#[test]
fn the_share_does_not_fall() {
    for (settled, all) in pairs().filter(|(settled, all)| settled < all) {
        assert!(share(settled, all) <= share(settled + 1, all), "{settled} of {all}");
    }
}

/// A tie is an odd number of two-thousandths. In lowest terms it has an odd
/// numerator and the denominator 16, 80 or 400; 2,000 is more than t can be.
/// So t 400 and 800 have 200 ties each, the ten other multiples of 80 have 40
/// each, the 52 other multiples of 16 have 8 each: 1,216. With the open ones
/// settled instead, the lower figure is even where it was odd.
#[test]
fn ties_of_both_kinds() {
    let ties: Vec<(u32, u32)> =
        pairs().filter_map(|(settled, all)| Some((tie(settled, all)?, all))).collect();
    let even = ties.iter().filter(|(lower, _)| lower % 2 == 0).count();
    assert_eq!(ties.len(), 1_216);
    assert_eq!(even, 608);
    assert!(ties.iter().all(|(_, all)| all % 16 == 0));
}

/// Counts that no run has, at ties, beside them and anywhere.
#[test]
fn far_larger_pairs() {
    let mut random = Random::new(5);
    let mut ties = 0;
    for _ in 0..LARGER {
        // Ties of each denominator: those with 2,000 are found only here.
        let parts = random.pick(&[16, 80, 400, 2_000]);
        let part = 1 + random.below(u64::from(u32::MAX / parts)) as u32;
        let settled = part * (1 + 2 * random.below(u64::from(parts) / 2) as u32);
        let any = 1 + random.below(u64::from(u32::MAX)) as u32;
        let of_any = random.below(u64::from(any) + 1) as u32;
        let all = part * parts;
        ties += usize::from(tie(settled, all).is_some());
        for (settled, all) in
            [(settled, all), (settled - 1, all), (settled + 1, all), (of_any, any)]
        {
            assert_eq!(share(settled, all), by_the_request(settled, all), "{settled} of {all}");
        }
    }
    assert_eq!(ties, LARGER);
    assert_eq!(share(u32::MAX, u32::MAX), WHOLE);
    assert_eq!(share(0, u32::MAX), 0);
    assert_eq!((share(1, 2_000), share(3, 2_000)), (0, 2));
}

/// What a reading says of settled transactions, all of them, and the share.
#[derive(Clone, Copy, Debug)]
struct Printed {
    settled: u32,
    all: u32,
    share: u32,
}

/// Of the runs that are read to their end.
static READINGS: LazyLock<Vec<Printed>> =
    LazyLock::new(|| SEEDS.filter_map(|seed| printed(&generate::bytes(seed))).collect());

/// `None` if the reading has no `share` line.
fn printed(run: &[u8]) -> Option<Printed> {
    let text = String::from_utf8(reading(run)).expect("plain text");
    let share = text.lines().last()?.strip_prefix("share ")?.parse().expect("a number");
    let transactions: Vec<&str> = text.lines().filter(|line| line.starts_with("tx ")).collect();
    let is_settled = |line: &&&str| line.ends_with(" paid") || line.ends_with(" returned");
    let settled = transactions.iter().filter(is_settled).count() as u32;
    Some(Printed { settled, all: transactions.len() as u32, share })
}

#[test]
fn share_lines_are_those_of_the_transactions() {
    for Printed { settled, all, share } in READINGS.iter() {
        assert_eq!(*share, by_the_request(*settled, *all), "{settled} of {all}");
    }
}

/// Whether it would be a tie with one settled transaction more or less.
fn is_beside(settled: u32, all: u32) -> bool {
    let less = settled.checked_sub(1).and_then(|less| tie(less, all));
    less.or(tie(settled + 1, all)).is_some()
}

/// The runs that are meant to be at a tie or beside it are, but for those whose
/// last instance could have no other block, and no larger than others.
#[test]
fn runs_about_ties() {
    let (mut at, mut beside, seeds) = (0, 0, 300);
    for seed in 0..seeds {
        let (size, most) = if seed % 10 == 0 { (Size::Medium, 200) } else { (Size::Small, 40) };
        let run = ties::run(&mut Random::new(seed), size, 20);
        let t = run.sheet.head.t;
        assert!(t.is_multiple_of(16) && (16..=most).contains(&t));
        let Printed { settled, all, .. } = printed(&run.bytes()).expect("a sound run");
        at += usize::from(tie(settled, all).is_some());
        beside += usize::from(is_beside(settled, all));
    }
    println!("of {seeds} runs {at} at a tie, {beside} beside one");
    assert!(at > 150 && beside > 60 && at + beside > 280);
}

/// A rule that is not the request's.
type Rule = (&'static str, fn(u32, u32) -> u32);

/// They are asked of one transaction or more, as many as a sheet can have.
const OTHER_RULES: [Rule; 4] = [
    ("rounded down", |settled, all| {
        let reached = |figure: &u32| figure * all <= WHOLE * settled;
        (0..=WHOLE).rev().find(reached).expect("a figure")
    }),
    ("a tie always up", |settled, all| {
        let nearest = |figure: &u32| (distance(*figure, settled, all), Reverse(*figure));
        (0..=WHOLE).min_by_key(nearest).expect("a figure")
    }),
    ("a tie always down", |settled, all| {
        let nearest = |figure: &u32| (distance(*figure, settled, all), *figure);
        (0..=WHOLE).min_by_key(nearest).expect("a figure")
    }),
    // One transaction would be taken for none; two of two would be 2000.
    ("thousandths of t - 1", |settled, all| {
        let nearest = |figure: &u32| (distance(*figure, settled, all - 1), figure % 2);
        if all == 1 {
            return WHOLE;
        }
        (0..=2 * WHOLE).min_by_key(nearest).expect("a figure")
    }),
];

/// What a run shows of request 05, and by which rules its share would differ.
fn shown(Printed { settled, all, share }: Printed) -> Vec<&'static str> {
    if all == 0 {
        return vec!["t 0"];
    }
    let mut shown: Vec<&str> = OTHER_RULES
        .iter()
        .filter(|(_, rule)| rule(settled, all) != share)
        .map(|(name, _)| *name)
        .collect();
    let mut show = |what: &'static str, is_shown: bool| shown.extend(is_shown.then_some(what));
    let lower = tie(settled, all);
    show("tie, the lower figure even", lower.is_some_and(|lower| lower % 2 == 0));
    show("tie, the lower figure odd", lower.is_some_and(|lower| lower % 2 == 1));
    show("tie, t 16", lower.is_some() && all == 16);
    show("tie, t above 16", lower.is_some() && all > 16);
    show("one transaction from a tie", is_beside(settled, all));
    show("none settled", settled == 0);
    show("all settled", settled == all);
    shown
}

/// Of the runs of a thousand seeds at least so many.
const WANTED: [(&str, usize); 12] = [
    ("rounded down", 100),
    ("a tie always up", 20),
    ("a tie always down", 20),
    ("thousandths of t - 1", 300),
    ("tie, the lower figure even", 20),
    ("tie, the lower figure odd", 20),
    ("tie, t 16", 15),
    ("tie, t above 16", 15),
    ("one transaction from a tie", 20),
    ("none settled", 30),
    ("all settled", 40),
    ("t 0", 15),
];

#[test]
fn runs_hang_on_the_rounding() {
    let mut seen: BTreeMap<&str, usize> = BTreeMap::new();
    for what in READINGS.iter().flat_map(|printed| shown(*printed)) {
        *seen.entry(what).or_default() += 1;
    }
    println!("of {} runs {seen:#?}", READINGS.len());
    for (what, least) in WANTED {
        let times = seen.get(what).copied().unwrap_or(0);
        assert!(times >= least, "{what}: {times}");
    }
}
