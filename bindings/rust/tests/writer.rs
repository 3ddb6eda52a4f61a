//! A run, written: the bytes are those that tests/frames puts together, and what is refused leaves no byte.

#[allow(dead_code)]
mod frames;
#[allow(dead_code)]
mod values;

use frames::{balances, block, header, transaction, worked_run};
use rugxeni::{read, Code, Entry, Kind, Operation, RunWriter, Sizes, Transaction};
use values::{refusal, values};

fn sizes(instances: u16, accounts: u16, registers: u16, transactions: u16) -> Sizes {
    Sizes {
        instances,
        accounts,
        registers,
        transactions,
    }
}

fn entries(list: &[(u16, u32)]) -> Vec<Entry> {
    let entry = |(account, amount): &(u16, u32)| Entry {
        account: *account,
        amount: *amount,
    };
    list.iter().map(entry).collect()
}

fn payment(debits: &[(u16, u32)], credits: &[(u16, u32)]) -> Transaction {
    Transaction {
        kind: Kind::Payment,
        debits: entries(debits),
        credits: entries(credits),
        operations: vec![],
    }
}

fn operation(code: Code, register: u8, value: u32) -> Operation {
    Operation {
        code,
        register,
        value,
    }
}

fn contract(
    debits: &[(u16, u32)],
    credits: &[(u16, u32)],
    operations: &[Operation],
) -> Transaction {
    Transaction {
        kind: Kind::Contract,
        operations: operations.to_vec(),
        ..payment(debits, credits)
    }
}

/// A writer with the worked run's header and balances; a transaction is due.
fn begun() -> RunWriter {
    let mut writer = RunWriter::new();
    assert_eq!(writer.header(sizes(2, 3, 1, 2)), Ok(()));
    assert_eq!(writer.balances(&[10, 5, 0]), Ok(()));
    writer
}

/// A writer with the worked run's sheet.
fn complete() -> RunWriter {
    let mut writer = begun();
    let first = payment(&[(0, 4), (1, 5)], &[(2, 9)]);
    let second = contract(&[(2, 6)], &[(1, 6)], &[operation(Code::Set, 0, 7)]);
    assert_eq!(writer.transaction(&first), Ok(()));
    assert_eq!(writer.transaction(&second), Ok(()));
    writer
}

#[test]
fn the_worked_run() {
    let mut writer = complete();
    assert_eq!(writer.bytes(), &worked_run()[..100]);
    assert_eq!(writer.block(&values(1, 1, 1, &[0, 0], &[0])), Ok(()));
    assert_eq!(writer.block(&values(0, 1, 2, &[0, 1], &[0, 1])), Ok(()));
    assert_eq!(writer.bytes(), worked_run());
    assert_eq!(writer.into_bytes(), worked_run());
}

#[test]
fn the_longest_frames() {
    let mut writer = RunWriter::new();
    let most = [1 << 40; 1_024];
    let four = [(0, 1), (1, u32::MAX), (2, 3), (1_023, 4)];
    let codes = [
        Code::Equal,
        Code::AtLeast,
        Code::Set,
        Code::Add,
        Code::Subtract,
        Code::Set,
        Code::Add,
        Code::Equal,
    ];
    let eight = codes.map(|code| operation(code, 63, u32::MAX));
    let cut = [9; 16];
    let citations = [65_535; 32];
    assert_eq!(writer.header(sizes(16, 1_024, 64, 1)), Ok(()));
    assert_eq!(writer.balances(&most), Ok(()));
    assert_eq!(writer.transaction(&contract(&four, &four, &eight)), Ok(()));
    assert_eq!(
        writer.block(&values(7, 8, u32::MAX, &cut, &citations)),
        Ok(())
    );
    let operations = eight.map(|one| (one.code as u8, one.register, one.value));
    let expected = [
        header([16, 1_024, 64, 1]),
        balances(&most),
        transaction(1, &four, &four, &operations),
        block(7, 8, u32::MAX, &cut, &citations),
    ];
    assert_eq!(writer.bytes(), expected.concat());
}

/// The writer does not ask whether a ledger accepts a block: the reading says that it does not.
#[test]
fn blocks_that_are_turned_away() {
    let mut writer = complete();
    assert_eq!(writer.block(&values(9, 1, 1, &[0, 0], &[0])), Ok(()));
    assert_eq!(writer.block(&values(0, 7, 0, &[5, 5], &[9])), Ok(()));
    let reading = read(writer.bytes()).expect("a whole run");
    let lines: Vec<String> = reading.answers.iter().map(|one| one.to_string()).collect();
    assert_eq!(lines, ["refused 8 0", "refused 9 1"]);
}

#[test]
fn what_is_not_due_gives_3() {
    let three = Err(refusal(3, 0));
    let payment = payment(&[(0, 1)], &[(1, 1)]);
    let block = values(0, 1, 1, &[0, 0], &[]);
    let mut writer = RunWriter::new();
    assert_eq!(writer.balances(&[1]), three);
    assert_eq!(writer.transaction(&payment), three);
    assert_eq!(writer.block(&block), three);
    assert_eq!(writer.bytes(), []);
    let mut writer = begun();
    let before = writer.bytes().to_vec();
    assert_eq!(writer.header(sizes(2, 3, 1, 2)), three);
    assert_eq!(writer.balances(&[10, 5, 0]), three);
    assert_eq!(writer.block(&block), three);
    assert_eq!(writer.bytes(), before);
    let mut writer = complete();
    assert_eq!(writer.header(sizes(2, 3, 1, 2)), three);
    assert_eq!(writer.balances(&[10, 5, 0]), three);
    assert_eq!(writer.transaction(&payment), three);
    assert_eq!(writer.bytes(), &worked_run()[..100]);
}

#[test]
fn sheets_turned_away() {
    let mut writer = RunWriter::new();
    for bad in [
        sizes(0, 1, 0, 0),
        sizes(17, 1, 0, 0),
        sizes(1, 0, 0, 0),
        sizes(1, 1_025, 0, 0),
        sizes(1, 1, 65, 0),
        sizes(1, 1, 0, 1_025),
    ] {
        assert_eq!(writer.header(bad), Err(refusal(5, 0)), "{bad:?}");
    }
    assert_eq!(writer.bytes(), []);
    assert_eq!(writer.header(sizes(2, 3, 1, 2)), Ok(()));
    for length in [0, 2, 4, 1_024, 1_025, 100_000] {
        assert_eq!(writer.balances(&vec![1; length]), Err(refusal(4, 0)));
    }
    assert_eq!(writer.balances(&[0, (1 << 40) + 1, 0]), Err(refusal(5, 0)));
    assert_eq!(writer.bytes(), header([2, 3, 1, 2]));
    assert_eq!(writer.balances(&[10, 5, 0]), Ok(()));
}

/// 5 where a count byte can say how long a list is, 4 where it cannot.
#[test]
fn transactions_turned_away() {
    let set = operation(Code::Set, 0, 1);
    let one = [(0, 1)];
    let cases = [
        (5, payment(&[], &one)),
        (5, payment(&one, &[])),
        (5, payment(&[(3, 1)], &one)),
        (5, payment(&[(0, 0)], &one)),
        (5, contract(&one, &one, &[operation(Code::Set, 1, 1)])),
        (
            5,
            Transaction {
                kind: Kind::Payment,
                ..contract(&one, &one, &[set])
            },
        ),
        (6, payment(&[(0, 1), (0, 1)], &[(1, 2)])),
        (7, payment(&one, &[(1, 2)])),
    ];
    let mut writer = begun();
    let before = writer.bytes().to_vec();
    for (number, transaction) in cases {
        let got = writer.transaction(&transaction);
        assert_eq!(got, Err(refusal(number, 0)), "{transaction:?}");
    }
    for (number, length) in [(5, 9), (5, 255), (4, 256), (4, 260), (4, 65_536 + 1)] {
        let refused = Err(refusal(number, 0));
        let many = vec![(0, 1); length];
        assert_eq!(writer.transaction(&payment(&many, &one)), refused);
        assert_eq!(writer.transaction(&payment(&one, &many)), refused);
        let operations = vec![set; length];
        let contract = contract(&one, &one, &operations);
        assert_eq!(writer.transaction(&contract), refused, "{length}");
    }
    assert_eq!(writer.bytes(), before);
    assert_eq!(writer.transaction(&payment(&one, &one)), Ok(()));
}

#[test]
fn blocks_that_have_no_frame() {
    let mut writer = complete();
    let before = writer.bytes().to_vec();
    for (number, length) in [(5, 33), (5, 65_535), (4, 65_536), (4, 65_536 + 32)] {
        let block = values(0, 1, 1, &[0, 0], &vec![0; length]);
        assert_eq!(writer.block(&block), Err(refusal(number, 0)), "{length}");
    }
    let unused = values(0, 1, 1, &[0, 0, 1], &[]);
    assert_eq!(writer.block(&unused), Err(refusal(5, 0)));
    assert_eq!(writer.bytes(), before);
}
