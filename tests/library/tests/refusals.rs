//! Names and numbers of the refusals: those of the proved crates, in Rust and
//! in the header; and the version, which stands in three places.

use std::collections::BTreeMap;
use std::fs;
use std::path::Path;

use besklaun::{version, NoRefusal, Refusal, VERSION};

fn read(path: &str) -> String {
    let root = Path::new(env!("CARGO_MANIFEST_DIR")).join("../..");
    fs::read_to_string(root.join(path)).unwrap()
}

/// The variants of the proved crates' enum, with their numbers.
fn proved() -> BTreeMap<u8, String> {
    let source = read("crates/llsc/src/refusals.rt");
    let (_, body) = source.split_once("pub enum Refusal {").unwrap();
    let (body, _) = body.split_once("\n}").unwrap();
    let rows = body.lines().filter(|line| !line.trim().starts_with("//"));
    let rows = rows.filter_map(|line| line.trim().trim_end_matches(',').split_once(" = "));
    rows.map(|(name, number)| (number.parse().unwrap(), name.to_string()))
        .collect()
}

#[test]
fn rust_has_the_rows_of_the_proved_crates() {
    let proved = proved();
    assert_eq!(proved.len(), 27);
    let here = Refusal::ALL.iter();
    let here: BTreeMap<u8, String> = here.map(|row| (row.number(), format!("{row:?}"))).collect();
    assert_eq!(here, proved);
    for number in 0..=255 {
        let row = Refusal::try_from(number);
        match proved.contains_key(&number) {
            true => assert_eq!(row.unwrap().number(), number),
            false => assert_eq!(row, Err(NoRefusal(number))),
        }
    }
}

/// `NoSuchProcess` is `BESKLAUN_NO_SUCH_PROCESS`.
#[test]
fn c_has_the_rows_of_the_proved_crates() {
    let header = read("library/besklaun.h");
    let defines = header
        .lines()
        .filter_map(|line| line.strip_prefix("#define BESKLAUN_"));
    let words = defines.map(|line| line.split_whitespace().collect::<Vec<_>>());
    let numbered = words.filter(|words| words.get(2) == Some(&"/*"));
    let here: BTreeMap<u8, String> = numbered
        .map(|words| (words[1].parse().unwrap(), words[0].to_string()))
        .collect();
    let expected = proved()
        .into_iter()
        .map(|(number, name)| (number, in_capitals(&name)));
    assert_eq!(here, expected.collect());
}

fn in_capitals(name: &str) -> String {
    let mut told = String::new();
    for letter in name.chars() {
        if letter.is_uppercase() && !told.is_empty() {
            told.push('_');
        }
        told.extend(letter.to_uppercase());
    }
    told
}

#[test]
fn words_tell_number_and_cause() {
    let told = Refusal::NoSuchProcess.to_string();
    assert_eq!(told, "refused 4: the process is not below N");
    let all: Vec<String> = Refusal::ALL.iter().map(Refusal::to_string).collect();
    let ends = |told: &String| told.split_once(": ").map_or(0, |(_, words)| words.len());
    assert!(all.iter().all(|told| ends(told) > 10), "{all:?}");
}

#[test]
fn one_version_in_the_header_the_package_and_the_library() {
    let header = read("library/besklaun.h");
    assert!(header.contains(&format!("#define BESKLAUN_VERSION \"{VERSION}\"\n")));
    let parts: Vec<u32> = VERSION
        .split('.')
        .map(|part| part.parse().unwrap())
        .collect();
    let number = 10_000 * parts[0] + 100 * parts[1] + parts[2];
    assert!(header.contains(&format!("#define BESKLAUN_VERSION_NUMBER {number}\n")));
    assert_eq!(version(), number);
}
