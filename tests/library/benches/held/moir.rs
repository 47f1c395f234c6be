//! The same for Moir's bench: a WLL and an SC of one process after another.

use besklaun::moir::{self, Order, Reply};
use besklaun::{moir_run_text, Refusal};

use crate::{least, MOST, WORDS};

type Call = fn(&mut [u64], usize, Order<'_>) -> Result<Reply, Refusal>;

/// One line.
pub fn row(n: usize, w: usize) {
    let entry = entry_of_a_run(n, w);
    let commands = one_after_another(n, w);
    let step = each(moir::step, n, w, &commands);
    let command = each(moir::command, n, w, &commands);
    let (near, whole) = (step / entry, command / entry);
    println!("| {n} | {w} | {entry:.0} | {step:.0} | {near:.2} | {command:.0} | {whole:.2} |");
}

/// A text of the same commands; it ends where its listing is full.
fn entry_of_a_run(n: usize, w: usize) -> f64 {
    let calls: Vec<String> = (0..n).map(|p| format!("{p}l {p}! {p}s7 {p}!")).collect();
    let text = format!("{n} {w} 5\n250({})\n", calls.join(" "));
    let mut listing = vec![0; 65_536];
    let mut entries = 0;
    let best = least(|| entries = moir_run_text(text.as_bytes(), &mut listing).entries);
    best / entries as f64
}

fn one_after_another(n: usize, w: usize) -> Vec<(usize, Order<'static>)> {
    let mut held = set_up(n, w);
    let mut commands = Vec::new();
    while commands.len() < MOST {
        for p in 0..n {
            for start in [Order::Wll, Order::Sc(&WORDS[..w])] {
                let mut order = start;
                loop {
                    commands.push((p, order));
                    let reply = moir::command(&mut held, p, order).expect("a right command");
                    order = Order::Step;
                    if reply != Reply::Accepted {
                        break;
                    }
                }
            }
        }
    }
    commands.truncate(MOST);
    commands
}

fn set_up(n: usize, w: usize) -> Vec<u64> {
    let mut held = vec![0; moir::length(n, w)];
    moir::set_up(&mut held, n, w, &[5; 64][..w]).expect("the sizes are right");
    held
}

/// Nanoseconds for each of the commands.
fn each(call: Call, n: usize, w: usize, commands: &[(usize, Order<'_>)]) -> f64 {
    let begun = set_up(n, w);
    let mut held = begun.clone();
    let best = least(|| {
        held.copy_from_slice(&begun);
        for (p, order) in commands {
            let reply = call(&mut held, *p, *order);
            assert!(reply.is_ok(), "a right command is refused");
        }
    });
    best / commands.len() as f64
}
