//! Every schedule of a and b turns, in dictionary order, by plain recursion.

/// Calls `visit` with each of them.
pub fn every_schedule(a: usize, b: usize, visit: &mut impl FnMut(&[u8])) {
    go_on(a, b, &mut Vec::with_capacity(a + b), visit);
}

fn go_on(a: usize, b: usize, made: &mut Vec<u8>, visit: &mut impl FnMut(&[u8])) {
    if a == 0 && b == 0 {
        return visit(made);
    }
    for (turn, left) in [(0, a), (1, b)] {
        if left > 0 {
            made.push(turn);
            match turn {
                0 => go_on(a - 1, b, made, visit),
                _ => go_on(a, b - 1, made, visit),
            }
            made.pop();
        }
    }
}
