//! The whole memory as lines of numbers: the records, the process records,
//! the words. README has the order.

use crate::machine::{Bench, Process, Record};

pub fn memory(bench: &Bench) -> Vec<String> {
    let mut lines: Vec<String> = bench.records().iter().flat_map(of_record).collect();
    lines.extend(bench.processes().iter().flat_map(of_process));
    lines.extend(rows(bench).iter().map(|row| line(row)));
    lines
}

/// X, Bank, Help, a place to a line, its links last.
fn of_record(record: &Record) -> Vec<String> {
    let x = record.x();
    let tag = x.content();
    let mut lines = vec![line(&[
        tag.buffer as u64,
        tag.sequence as u64,
        x.link_bits(),
    ])];
    for place in record.bank() {
        lines.push(line(&[place.content() as u64, place.link_bits()]));
    }
    for place in record.help() {
        let request = place.content();
        let flag = u64::from(request.helpme);
        lines.push(line(&[flag, request.buffer as u64, place.link_bits()]));
    }
    lines
}

/// What a process has once, then a line for each record.
fn of_process(process: &Process) -> Vec<String> {
    let places = [process.b, process.c, process.d, process.e].map(|number| number as u64);
    let mut once = vec![
        process.record as u64,
        u64::from(process.line.number()),
        process.word_place as u64,
        process.count,
    ];
    once.extend(places);
    let mut lines = vec![line(&once)];
    for own in &process.sets {
        let numbers = [own.mybuf, own.x.buffer, own.x.sequence].map(|number| number as u64);
        lines.push(line(&[&numbers[..], &[u64::from(own.linked)]].concat()));
    }
    lines
}

/// The rows of W words: the buffers record by record, so that buffer b of
/// record j is row 3Nj + b, then the return areas, then the offer areas.
fn rows(bench: &Bench) -> Vec<Vec<u64>> {
    let mut rows = Vec::new();
    for record in bench.records() {
        rows.extend(record.buffers().cloned());
    }
    rows.extend(bench.processes().iter().map(|p| p.return_area.clone()));
    rows.extend(bench.processes().iter().map(|p| p.offer_area.clone()));
    rows
}

fn line(numbers: &[u64]) -> String {
    let words: Vec<String> = numbers.iter().map(u64::to_string).collect();
    words.join(" ")
}
