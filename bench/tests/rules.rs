//! The figures of docs/RULES.md: divisions, contributions and the worked example.

use plain::contribution::{assess, contribution, renewed, Isin, Security, Side, Trade};
use plain::division::{divide, MOST};
use plain::fund::Book;
use plain::house::{Account, TableHouse};
use plain::refusal::Refusal;
use plain::rows::Standing;

fn divided(amount: u64, weights: &[u64]) -> Result<Vec<u64>, Refusal> {
    let mut parts = vec![0; weights.len()];
    divide(amount, weights, &mut parts).map(|()| parts)
}

fn security(name: &[u8; 12], price: u64, risk: u64, rate: u64) -> Security {
    Security {
        isin: Isin(*name),
        price,
        risk,
        rate,
    }
}

fn bought(name: &[u8; 12], quantity: u64, price: u64) -> Trade {
    Trade {
        isin: Isin(*name),
        side: Side::Bought,
        quantity,
        price,
    }
}

fn sold(name: &[u8; 12], quantity: u64, price: u64) -> Trade {
    Trade {
        side: Side::Sold,
        ..bought(name, quantity, price)
    }
}

const A: &[u8; 12] = b"PLAAAAAAAAA1";
const B: &[u8; 12] = b"PLBBBBBBBBB2";

#[test]
fn divisions() {
    assert_eq!(divided(3, &[5, 0, 5]), Ok(vec![1, 0, 2]));
    assert_eq!(divided(10, &[1, 1, 1]), Ok(vec![3, 3, 4]));
    assert_eq!(
        divided(2_999_975, &[2_000_000; 3]),
        Ok(vec![999_991, 999_992, 999_992])
    );
    assert_eq!(
        divided(1_000_000, &[2_000_025, 999_991, 999_992, 999_992]),
        Ok(vec![400_005, 199_998, 199_998, 199_999])
    );
    assert_eq!(divided(0, &[7, 0]), Ok(vec![0, 0]));
    assert_eq!(divided(MOST, &[0, MOST]), Ok(vec![0, MOST]));
}

#[test]
fn refused_divisions() {
    let refused = |number| Err(Refusal::new(number, 'd'));
    assert_eq!(divided(MOST + 1, &[u64::MAX; 65]), refused(25));
    assert_eq!(divided(MOST + 1, &[MOST, 1]), refused(25));
    assert_eq!(divided(MOST + 1, &[0]), refused(12));
    assert_eq!(divided(0, &[]), refused(40));
    let mut parts = [7, 7];
    assert_eq!(divide(1, &[1], &mut parts), Err(Refusal::new(25, 'd')));
    assert_eq!(parts, [7, 7]);
}

#[test]
fn contributions() {
    let first = [security(A, 1_000, 1_250, 10_000)];
    assert_eq!(
        assess(&first, &[bought(A, 50_000, 1_040), sold(A, 20_000, 990)]),
        Ok(5_950_000)
    );
    assert_eq!(assess(&first, &[bought(A, 20_000, 900)]), Ok(2_500_000));
    assert_eq!(assess(&first, &[]), Ok(2_000_000));
    let both = [first[0], security(B, 1_000, 1_250, 10_000)];
    assert_eq!(
        assess(&both, &[bought(A, 20_000, 1_100), bought(B, 20_000, 900)]),
        Ok(5_000_000)
    );
}

#[test]
fn one_rounding() {
    let worth = |count| {
        [
            security(A, 101, 1, 43_215),
            security(B, 101, 1, 43_215),
            security(b"PLCCCCCCCCC3", 1_000, 10_000, 10_000),
        ]
        .into_iter()
        .take(count)
        .collect::<Vec<_>>()
    };
    // Under the minimum the rounding does not show, so a third security lifts W to 2,000,000 exactly.
    let lift = bought(b"PLCCCCCCCCC3", 2_000, 1_000);
    assert_eq!(assess(&worth(3), &[lift, bought(A, 1, 101)]), Ok(2_000_001));
    assert_eq!(
        assess(&worth(3), &[lift, bought(A, 1, 101), bought(B, 1, 101)]),
        Ok(2_000_001)
    );
    assert_eq!(assess(&worth(3), &[lift]), Ok(2_000_000));
}

#[test]
fn the_threshold() {
    assert_eq!(renewed(5_950_000, 6_545_000), 5_950_000);
    assert_eq!(renewed(5_950_000, 6_545_001), 6_545_001);
    assert_eq!(renewed(0, 2_000_000), 2_000_000);
    assert_eq!(renewed(u64::MAX, 2_000_000), 2_000_000);
    assert_eq!(contribution(&[], &[], 2_200_000), Ok(2_200_000));
}

#[test]
fn refused_contributions() {
    let prices = [
        security(A, 1, 10_000, 100_000),
        security(B, 50_000_000, 0, 1),
    ];
    let refused = |number, place| Err(Refusal::at(number, 'c', place));
    assert_eq!(
        assess(&prices[1..], &[bought(B, 2, 50_000_000)]),
        Ok(2_000_000)
    );
    assert_eq!(
        assess(&prices[1..], &[bought(B, 2, 50_000_001)]),
        refused(18, 0)
    );
    assert_eq!(
        assess(&prices, &[bought(A, 1, 1), bought(b"PLCCCCCCCCC3", 1, 1)]),
        refused(17, 1)
    );
    assert_eq!(
        assess(&prices, &[bought(b"plccccccccc3", 0, 1)]),
        refused(13, 0)
    );
    assert_eq!(
        assess(&prices, &[bought(b"PLCCCCCCCCC3", 0, 1)]),
        refused(16, 0)
    );
    assert_eq!(assess(&[prices[0], prices[0]], &[]), refused(15, 1));
    assert_eq!(
        assess(&[prices[0], security(A, 1, 10_001, 1)], &[]),
        refused(14, 1)
    );
    assert_eq!(assess(&[], &[bought(A, 1, 1); 129]), refused(19, 0));
}

#[test]
fn the_highest_contribution() {
    let prices = [security(A, 100_000_000, 10_000, 100_000)];
    assert_eq!(
        assess(&prices, &[bought(A, 1, 100_000_000)]),
        Ok(1_000_000_000)
    );
    let cheap = [security(A, 1, 10_000, 100_000)];
    assert_eq!(
        assess(&cheap, &[bought(A, 2, 50_000_000)]),
        Ok(1_000_000_000)
    );
    let one_more = [prices[0], security(B, 1, 0, 100_000)];
    let trades = [bought(A, 1, 100_000_000), bought(B, 1, 2)];
    assert_eq!(assess(&one_more, &trades), Err(Refusal::new(20, 'c')));
}

#[test]
fn the_largest_sums() {
    let prices = [
        security(A, 1, 10_000, 100_000),
        security(B, 1, 10_000, 100_000),
    ];
    let trades = [bought(A, 1, 100_000_000); 128];
    assert_eq!(assess(&prices, &trades), Err(Refusal::new(20, 'c')));
    let short = [security(A, 100_000_000, 10_000, 100_000)];
    assert_eq!(
        assess(&short, &[sold(A, 1, 1); 128]),
        Err(Refusal::new(20, 'c'))
    );
}

fn example() -> Book {
    let balances = [
        (0, 0),
        (1, 100),
        (10, 2_000_000),
        (11, 3_000_000),
        (12, 2_000_000),
        (13, 2_000_000),
    ];
    let accounts = balances.map(|(number, balance)| Account { number, balance });
    let mut book = Book::open(TableHouse::make(accounts.to_vec()).unwrap()).unwrap();
    for code in 10..14 {
        assert_eq!(book.join(code), Ok(2_000_000));
    }
    book
}

fn figures(book: &Book) -> Vec<(u64, u64, u64)> {
    book.rows()
        .iter()
        .map(|row| (row.base, row.reserve, row.charged))
        .collect()
}

fn sums(book: &Book) -> [u64; 3] {
    [
        book.all_shares(),
        book.fund_balance(),
        book.house().balance(1).unwrap(),
    ]
}

#[test]
fn the_worked_example() {
    let mut book = example();
    assert_eq!(sums(&book), [8_000_000, 8_000_000, 100]);
    assert_eq!(book.income(100), Ok(100));
    assert_eq!(figures(&book), [(2_000_000, 25, 0); 4]);
    let case = book.open_case(10).unwrap();
    assert_eq!(case.number(), 1);
    assert_eq!(
        book.use_fund(&case, 5_000_000),
        Ok([2_000_000, 25, 2_999_975, 0])
    );
    let used = [
        (0, 0, 2_000_025),
        (1_000_009, 25, 999_991),
        (1_000_008, 25, 999_992),
        (1_000_008, 25, 999_992),
    ];
    assert_eq!(figures(&book), used);
    assert_eq!(sums(&book), [3_000_100, 3_000_100, 5_000_000]);
    assert_eq!(book.recover(&case, 1_000_000), Ok(1_000_000));
    let reserves = [400_005, 200_023, 200_023, 200_024];
    assert_eq!(
        book.rows()
            .iter()
            .map(|row| row.reserve)
            .collect::<Vec<_>>(),
        reserves
    );
    assert_eq!(book.regulate(11), Ok([999_991, 0]));
    assert_eq!(figures(&book)[1], (2_000_000, 200_023, 999_991));
    assert_eq!(sums(&book), [5_000_091, 5_000_091, 4_000_000]);
    assert_eq!(book.close(&case), Ok(1));
    assert_eq!(book.rows()[0].standing, Standing::Barred);
    assert_eq!(book.recover(&case, 1), Err(Refusal::new(37, 'b')));
}
