//! The number of a schedule and back, by counting, without any table.

pub const MOST_TURNS: u64 = 32;

/// How many schedules have a turns of process 0 and b of process 1: a + b
/// over a, by the product (b + 1)(b + 2) .. (b + a) / 1 / 2 .. / a. Each
/// division is even, as a product of k whole numbers in a row has k! in it.
pub fn ways(a: u64, b: u64) -> u128 {
    let mut product = 1;
    for k in 1..=u128::from(a) {
        product = product * (u128::from(b) + k) / k;
    }
    product
}

/// The schedule of this number, from 0; takes 20 and 21.
pub fn schedule_of(a: u64, b: u64, number: u128) -> Result<Vec<u8>, u8> {
    check(a, b)?;
    if number >= ways(a, b) {
        return Err(21);
    }
    let (mut a, mut b, mut rest) = (a, b, number);
    let mut turns = Vec::new();
    while a + b > 0 {
        let with_0_next = if a == 0 { 0 } else { ways(a - 1, b) };
        if rest < with_0_next {
            a -= 1;
            turns.push(0);
        } else {
            b -= 1;
            rest -= with_0_next;
            turns.push(1);
        }
    }
    Ok(turns)
}

/// How many schedules come before this one; takes 20 and 22.
pub fn number_of(a: u64, b: u64, turns: &[u64]) -> Result<u128, u8> {
    let turns = right_turns(a, b, turns)?;
    let (mut a, mut b, mut before) = (a, b, 0);
    for turn in turns {
        match turn {
            0 => a -= 1,
            _ => {
                // all with 0 here, if there are any, come before
                before += if a == 0 { 0 } else { ways(a - 1, b) };
                b -= 1;
            }
        }
    }
    Ok(before)
}

/// The schedule after this one, or none if it was the last; takes 20 and 22.
/// The last 0 that has a 1 after it becomes 1, and what follows it goes back
/// to the first order of the turns left.
pub fn after(a: u64, b: u64, turns: &[u64]) -> Result<Option<Vec<u8>>, u8> {
    let mut turns = right_turns(a, b, turns)?;
    let Some(last_1) = turns.iter().rposition(|turn| *turn == 1) else {
        return Ok(None);
    };
    let Some(at) = turns[..last_1].iter().rposition(|turn| *turn == 0) else {
        return Ok(None);
    };
    turns[at] = 1;
    let rest = &mut turns[at + 1..];
    let first_1 = rest
        .iter()
        .position(|turn| *turn == 1)
        .expect("a 1 follows");
    rest[first_1] = 0;
    rest.sort_unstable();
    Ok(Some(turns))
}

fn check(a: u64, b: u64) -> Result<(), u8> {
    match a > MOST_TURNS || b > MOST_TURNS {
        true => Err(20),
        false => Ok(()),
    }
}

/// 20, and 22 for other totals or a third process.
fn right_turns(a: u64, b: u64, turns: &[u64]) -> Result<Vec<u8>, u8> {
    check(a, b)?;
    let of = |process: u64| turns.iter().filter(|turn| **turn == process).count() as u64;
    if of(0) != a || of(1) != b || turns.len() as u64 != a + b {
        return Err(22);
    }
    Ok(turns.iter().map(|turn| *turn as u8).collect())
}
