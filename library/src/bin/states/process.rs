//! A process: its call, the line of Figure 2 that comes next, and what it has
//! for itself.

use std::io::{self, Write};

use super::buffers::words;
use super::next::{kind, next};
use super::shared::links_of;
use super::station::Station;

pub fn write(out: &mut impl Write, station: &Station, p: usize) -> io::Result<()> {
    let (call, own) = (station.call(p), station.holding(p));
    writeln!(out, "process {p}: {}", doing(station, p))?;
    if let Some(next) = next(station, p) {
        let (line, item, does) = (next.line, next.item, next.does);
        writeln!(out, "    next      line {line}, {item}: {does}")?;
    }
    writeln!(out, "    mybuf     {}", own.mybuf)?;
    let (buffer, number) = (own.x_buffer, own.x_number);
    writeln!(
        out,
        "    x         buffer {buffer}, sequence number {number}"
    )?;
    let (b, c, d, e) = (call.b, call.c, call.d, call.e);
    writeln!(out, "    b c d e   {b} {c} {d} {e}")?;
    writeln!(out, "    linked    {}", links_of(station, p))?;
    writeln!(out, "    returned  {}", words(station.returned(p)))?;
    writeln!(out, "    offered   {}", words(station.offered(p)))
}

/// Its call and the steps of it, or that it is idle.
pub fn doing(station: &Station, p: usize) -> String {
    let call = station.call(p);
    let steps = match call.steps {
        1 => "1 own step".to_string(),
        steps => format!("{steps} own steps"),
    };
    match kind(call.point) {
        Some(kind) => format!("{kind}, {steps} so far"),
        None if station.holding(p).marked => "idle".to_string(),
        None => "idle, and no LL of it was answered yet".to_string(),
    }
}
