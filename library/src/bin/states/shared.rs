//! The shared places: X, Bank and Help, with their links.

use super::station::Station;

/// The rows of the table: item, what it holds, who is linked.
pub fn rows(station: &Station) -> Vec<[String; 3]> {
    let n = station.n;
    let mut rows = vec![x(station)];
    rows.extend((0..2 * n).map(|i| bank(station, i)));
    rows.extend((0..n).map(|p| help(station, p)));
    rows
}

fn x(station: &Station) -> [String; 3] {
    let x = station.x();
    let holds = format!("buffer {}, sequence number {}", x.buffer, x.number);
    ["X".to_string(), holds, linked(x.links)]
}

fn bank(station: &Station, i: usize) -> [String; 3] {
    let bank = station.bank(i);
    let holds = format!("buffer {}", bank.buffer);
    [format!("Bank[{i}]"), holds, linked(bank.links)]
}

pub fn help(station: &Station, p: usize) -> [String; 3] {
    let help = station.help(p);
    let holds = match help.asks {
        true => format!("buffer {}, asks for help", help.buffer),
        false => format!("buffer {}", help.buffer),
    };
    [format!("Help[{p}]"), holds, linked(help.links)]
}

/// The processes whose bits are set.
fn linked(links: u64) -> String {
    let linked: Vec<String> = (0..64)
        .filter(|p| links >> p & 1 == 1)
        .map(|p| p.to_string())
        .collect();
    match linked.is_empty() {
        true => "-".to_string(),
        false => linked.join(" "),
    }
}

/// The items in which process p has its link.
pub fn links_of(station: &Station, p: usize) -> String {
    let n = station.n;
    let has = |links: u64| links >> p & 1 == 1;
    let mut items = Vec::new();
    if has(station.x().links) {
        items.push("X".to_string());
    }
    let bank = (0..2 * n).filter(|i| has(station.bank(*i).links));
    items.extend(bank.map(|i| format!("Bank[{i}]")));
    let help = (0..n).filter(|q| has(station.help(*q).links));
    items.extend(help.map(|q| format!("Help[{q}]")));
    match items.is_empty() {
        true => "-".to_string(),
        false => items.join(" "),
    }
}
