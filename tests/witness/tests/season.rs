//! CR 2: listings read, sums, and their table.

use witness::rng::Rng;
use witness::season::{damaged, right, with_length, Fraction, Refusal, Season, SUM_LIMIT};

fn refused(number: u8, at: usize) -> Result<(), Refusal> {
    Err(Refusal { number, at })
}

fn after(n: u64, w: u64, listings: &[&str]) -> Season {
    let mut season = Season::empty(n, w);
    for listing in listings {
        let _ = season.add(listing.as_bytes());
    }
    season
}

fn rows(season: &Season) -> Vec<String> {
    let rows = season.table().expect("a table");
    rows.iter()
        .map(|(scs, lls)| format!("{scs} {lls}"))
        .collect()
}

const CASE_A: &str = "0 L 10 5\n0 S 6 1\n1 L 10 7\n0 V 1 0\nend 31\n";

#[test]
fn case_a_of_01() {
    assert_eq!(rows(&after(2, 1, &[CASE_A])), ["1/1 10/1", "0/0 10/1"]);
}

#[test]
fn fractions_in_lowest_terms() {
    assert_eq!(Fraction::lowest(0, 5), Fraction { over: 0, under: 1 });
    assert_eq!(Fraction::lowest(0, 0), Fraction { over: 0, under: 0 });
    assert_eq!(Fraction::lowest(12, 18), Fraction { over: 2, under: 3 });
    assert_eq!(Fraction::lowest(7, 7), Fraction { over: 1, under: 1 });
}

#[test]
fn a_refused_listing_counts_for_nothing() {
    let failed = "0 L 14 5\n0 S 6 1\n0 S 6 0\nrefused 12 21\n";
    let season = after(2, 1, &[CASE_A, "0 L 010 5\nend 1\n", failed]);
    assert_eq!(season.taken, 2);
    assert_eq!(rows(&season), ["2/3 12/1", "0/0 10/1"]);
}

#[test]
fn where_listings_break() {
    let places = [
        ("", 0),
        ("end 0", 5),
        ("end 0\nend 0\n", 6),
        ("00 L 8 5\nend 0\n", 1),
        ("0 L 8 05\nend 0\n", 7),
        ("end 4294967296\n", 13),
        ("2 L 8 5\nend 0\n", 1),
        ("0 L 8\nend 0\n", 5),
        ("0 L 8 5 5\nend 0\n", 7),
        ("0 S 5 2\nend 0\n", 7),
        ("0 X 5 1\nend 0\n", 2),
        ("0 L 8 5\n", 8),
        ("enf 0\n", 2),
        ("refused 1\n", 9),
    ];
    for (listing, at) in places {
        let mut season = Season::empty(2, 1);
        assert_eq!(
            season.add(listing.as_bytes()),
            refused(18, at),
            "{listing:?}"
        );
    }
}

#[test]
fn lengths() {
    let mut season = Season::empty(1, 1);
    assert_eq!(season.add(&with_length(65_536)), Ok(()));
    assert_eq!(season.add(&with_length(65_537)), refused(18, 65_536));
}

#[test]
fn rows_in_order() {
    let mut season = Season::empty(0, 0);
    season.taken = 4096;
    season.sums[1].steps = SUM_LIMIT;
    assert_eq!(season.add(b"x"), refused(1, 0));
    season.n = 2;
    assert_eq!(season.add(b"x"), refused(2, 0));
    season.w = 1;
    assert_eq!(season.add(b"x"), refused(9, 0));
    assert_eq!(season.table(), Err(9));
    season.sums[1].steps -= 1;
    assert_eq!(season.add(b"x"), refused(19, 0));
    season.taken = 4095;
    assert_eq!(season.add(b"x"), refused(18, 0));
    assert_eq!(season.add(CASE_A.as_bytes()), Ok(()));
    assert_eq!(season.add(b"end 0\n"), refused(9, 0));
}

#[test]
fn order_does_not_matter() {
    for index in 0..200 {
        let rng = &mut Rng::stream(3, index);
        let mut listings: Vec<Vec<u8>> = (0..6)
            .map(|k| {
                if k % 2 == 0 {
                    right(rng, 3, 2, 5)
                } else {
                    damaged(rng, 3, 2, 5)
                }
            })
            .collect();
        let table = |listings: &[Vec<u8>]| {
            let mut season = Season::empty(3, 2);
            for listing in listings {
                let _ = season.add(listing);
            }
            season.table()
        };
        let forward = table(&listings);
        listings.reverse();
        assert_eq!(table(&listings), forward);
    }
}
