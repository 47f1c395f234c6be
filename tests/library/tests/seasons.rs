//! Seasons of listings, against the separately written program: right
//! listings, damaged ones, and sums that a caller made otherwise.

use besklaun::{Fraction, NotAdded, Refusal, Row, Season, Sum};
use witness::rng::Rng;
use witness::season::{self as separately, damaged, right, LISTINGS, SUM_LIMIT};

#[test]
fn as_the_separately_written_program() {
    let rng = &mut Rng::stream(35, 0);
    for _ in 0..400 {
        let n = rng.between(1, 16) as u64;
        let w = rng.between(1, 6) as u64;
        let mut season = Season::new(n, w);
        let mut expected = separately::Season::empty(n, w);
        for _ in 0..rng.below(12) {
            let answers = rng.below(30);
            let listing = match rng.once_in(3) {
                true => damaged(rng, n, w, answers),
                false => right(rng, n, w, answers),
            };
            added(&mut season, &mut expected, &listing);
        }
        same(&season, &expected);
    }
}

#[test]
fn sums_of_any_numbers() {
    let rng = &mut Rng::stream(36, 0);
    for _ in 0..2_000 {
        let n = rng.between(0, 18) as u64;
        let w = rng.between(0, 66) as u64;
        let mut season = Season::new(n, w);
        let mut expected = separately::Season::empty(n, w);
        season.taken = LISTINGS - 2 + rng.below(4) as u64;
        let p = rng.below(16);
        season.each[p].steps = SUM_LIMIT - rng.below(3) as u64;
        season.each[p].lls = rng.below(4) as u64;
        expected.taken = season.taken;
        expected.sums = season.each.map(theirs);
        let listing = right(rng, n.clamp(1, 16), w.clamp(1, 64), 3);
        added(&mut season, &mut expected, &listing);
        same(&season, &expected);
    }
}

/// A listing added to both.
fn added(season: &mut Season, expected: &mut separately::Season, listing: &[u8]) {
    let told = match season.add(listing) {
        Ok(()) => (0, 0),
        Err(NotAdded::NoListing { at }) => (Refusal::NoListing.number(), at),
        Err(NotAdded::Refused(refusal)) => (refusal.number(), 0),
    };
    let said = match expected.add(listing) {
        Ok(()) => (0, 0),
        Err(refusal) => (refusal.number, refusal.at),
    };
    assert_eq!(told, said, "{}", listing.escape_ascii());
}

fn theirs(sum: Sum) -> separately::Sum {
    let Sum {
        successes,
        scs,
        steps,
        lls,
    } = sum;
    separately::Sum {
        successes,
        scs,
        steps,
        lls,
    }
}

/// Both have the same sums and the same table.
fn same(season: &Season, expected: &separately::Season) {
    assert_eq!(
        [season.n, season.w, season.taken],
        [expected.n, expected.w, expected.taken]
    );
    assert_eq!(season.each.map(theirs), expected.sums);
    let shown = |f: Fraction| format!("{}/{}", f.over, f.under);
    let rows = season.table().map_err(Refusal::number).map(|rows| {
        let lines = rows.map(|Row { successes, steps }| (shown(successes), shown(steps)));
        let (first, others) = lines.split_at(season.n as usize);
        assert!(others.iter().all(|(a, b)| a == "0/0" && b == "0/0"));
        first.to_vec()
    });
    let said = expected.table().map(|rows| {
        let lines = rows.iter().map(|(a, b)| (a.to_string(), b.to_string()));
        lines.collect::<Vec<_>>()
    });
    assert_eq!(rows, said);
}
