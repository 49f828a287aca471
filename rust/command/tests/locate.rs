//! The place of a sheet's first fault: its number is the library's for every damage that is tried here.

mod common;

use command::locate;
use common::{random_sheet, repository, sheet, Rng, TABLE_T};
use std::fs;

/// The number by which the library refuses the sheet, 0 if it is good.
fn by_library(bytes: &[u8]) -> u8 {
    let mut list = vec![0; 12_000];
    zagvirk::sheet::read(bytes, &mut list).map_or_else(|refusal| refusal.number(), |_| 0)
}

/// Asserts that the place is found for the same refusal, and that it is in the sheet or just behind it.
fn same(bytes: &[u8]) -> u8 {
    let wanted = by_library(bytes);
    let fault = locate::fault(bytes);
    let found = fault.as_ref().map_or(0, |fault| fault.refusal);
    let text = String::from_utf8_lossy(bytes);
    assert_eq!(found, wanted, "{fault:?}\n{text}");
    if let Some(fault) = fault {
        let lines = bytes.iter().filter(|&&byte| byte == b'\n').count();
        assert!((1..=lines + 1).contains(&fault.line), "{fault:?}\n{text}");
        assert!(
            fault.column.is_none_or(|column| (1..=3).contains(&column)),
            "{fault:?}\n{text}"
        );
        assert!(!fault.what.chars().any(char::is_control), "{fault:?}");
    }
    wanted
}

/// How many sheets had each number.
#[derive(Default)]
struct Tally([usize; 8]);

impl Tally {
    fn add(&mut self, bytes: &[u8]) {
        self.0[usize::from(same(bytes))] += 1;
    }

    fn print(&self, what: &str) {
        let all: usize = self.0.iter().sum();
        println!(
            "locate, {what}: {all} sheets, by refusal from 0 on {:?}",
            self.0
        );
    }
}

/// Each byte of T's sheet as each other byte, left out, doubled, and with another ahead of it; the sheet cut anywhere.
#[test]
fn one_byte_damages() {
    let mut tally = Tally::default();
    let good = TABLE_T.as_bytes();
    assert_eq!(same(good), 0);
    for at in 0..=good.len() {
        tally.add(&good[..at]);
        for byte in 0..=u8::MAX {
            let mut longer = good.to_vec();
            longer.insert(at, byte);
            tally.add(&longer);
            if at < good.len() {
                let mut changed = good.to_vec();
                changed[at] = byte;
                tally.add(&changed);
            }
        }
        if at < good.len() {
            let mut shorter = good.to_vec();
            shorter.remove(at);
            tally.add(&shorter);
        }
    }
    tally.print("one byte of T");
    assert!(tally.0.iter().all(|&number| number > 0), "each refusal");
}

/// Where the columns of a sheet begin.
fn columns(sheet: &[u8]) -> Vec<usize> {
    let start = |&at: &usize| at == 0 || sheet[at - 1] == b'\n';
    let lines = (0..sheet.len()).filter(start);
    let of_line = |at: usize| {
        let length = sheet[at..]
            .iter()
            .take_while(|&&byte| byte != b'\n')
            .count();
        (0..length / 5).map(move |column| at + 5 * column)
    };
    lines.flat_map(of_line).collect()
}

/// T's sheet with every one and every two of its columns blank, and random sheets with some of theirs.
#[test]
fn blank_columns() {
    let mut tally = Tally::default();
    let all = columns(TABLE_T.as_bytes());
    assert_eq!(all.len(), 27);
    for (index, one) in all.iter().enumerate() {
        for two in &all[index..] {
            let mut bytes = TABLE_T.as_bytes().to_vec();
            bytes[*one..one + 5].fill(b' ');
            bytes[*two..two + 5].fill(b' ');
            tally.add(&bytes);
        }
    }
    let mut rng = Rng::new(20_260_022);
    for _ in 0..20_000 {
        let mut bytes = random_sheet(&mut rng, 6, 4).into_bytes();
        let all = columns(&bytes);
        for _ in 0..1 + rng.below(3) {
            let at = rng.pick(&all);
            bytes[at..at + 5].fill(b' ');
        }
        tally.add(&bytes);
    }
    tally.print("blank columns");
    // No count grows, so no line is cut short, and a blank column is a number.
    assert_eq!((tally.0[1], tally.0[2]), (0, 0));
    assert!([0, 3, 4, 5, 6, 7]
        .iter()
        .all(|&number| tally.0[number] > 20));
}

/// The refused sheets of data/listing.
#[test]
fn listing_cases() {
    let mut tally = Tally::default();
    let folder = repository().join("data/listing");
    for entry in fs::read_dir(folder).expect("the folder data/listing") {
        let path = entry.expect("an entry").path();
        let Ok(bytes) = fs::read(path.join("table.txt")) else {
            continue;
        };
        tally.add(&bytes);
        let name = path.file_name().unwrap().to_string_lossy().into_owned();
        if let Some(number) = name.strip_prefix("sheet-") {
            let number = number.split('-').next().unwrap();
            assert_eq!(by_library(&bytes).to_string(), number, "{name}");
        }
    }
    tally.print("data/listing");
}

/// Damages a sheet in one of many ways.
fn damage(rng: &mut Rng, bytes: &mut Vec<u8>) {
    let at = rng.below(bytes.len().max(1)).min(bytes.len());
    match rng.below(8) {
        0 => bytes.truncate(at),
        1 => bytes.insert(at, rng.pick(b" 0129\n\r\t-+x")),
        2 => bytes.extend(b" \n".repeat(rng.below(3))),
        3 if at < bytes.len() => {
            bytes.remove(at);
        }
        4 => {
            let mut lines: Vec<&[u8]> = bytes.split_inclusive(|&byte| byte == b'\n').collect();
            if !lines.is_empty() {
                let (one, other) = (rng.below(lines.len()), rng.below(lines.len()));
                match rng.below(3) {
                    0 => lines.swap(one, other),
                    1 => lines.insert(one, lines[other]),
                    _ => {
                        lines.remove(one);
                    }
                }
                *bytes = lines.concat();
            }
        }
        _ if at < bytes.len() => {
            let column = at - at % 5;
            let number = rng.pick(&[
                "    0", "    1", "    9", "   12", "   65", "  256", "99999", "     ",
            ]);
            match rng.below(3) {
                0 => bytes[at] = rng.pick(b" 0123456789\n"),
                1 => bytes[at] = rng.bits() as u8,
                _ if column + 5 <= bytes.len() => {
                    bytes[column..column + 5].copy_from_slice(number.as_bytes());
                }
                _ => {}
            }
        }
        _ => {}
    }
}

#[test]
fn random_damages() {
    let mut tally = Tally::default();
    let mut rng = Rng::new(20_260_020);
    for _ in 0..60_000 {
        let mut bytes = random_sheet(&mut rng, 6, 4).into_bytes();
        for _ in 0..1 + rng.below(3) {
            damage(&mut rng, &mut bytes);
        }
        tally.add(&bytes);
    }
    tally.print("random damages");
    assert!(tally.0.iter().all(|&number| number > 20), "each refusal");
}

/// The ends of the ranges of all counts, and the largest sheet.
#[test]
fn limits() {
    let mut tally = Tally::default();
    for (states, letters, transitions) in [(1, 0, 0), (64, 250, 4_000), (64, 0, 4_000)] {
        for more in [(0, 0, 0), (1, 0, 0), (0, 1, 0), (0, 0, 1)] {
            let marks = vec![3; states + more.0];
            let all: Vec<(usize, usize, usize)> = (0..transitions + more.2)
                .map(|number| (number / 63, (number % 63).min(letters), number % states))
                .collect();
            tally.add(sheet(letters + more.1, &marks, &all).as_bytes());
        }
    }
    let all: Vec<(usize, usize, usize)> = (0..4_000)
        .map(|number| (number / 63, number % 63, 63 - number % 64))
        .collect();
    let mut largest = sheet(250, &[3; 64], &all).into_bytes();
    assert_eq!(largest.len(), 64_720);
    tally.add(&largest);
    tally.add(&largest[..64_719]);
    largest.push(b'\n');
    tally.add(&largest);
    tally.print("limits");
}

/// A refusal that is not the one found here is told by its number alone.
#[test]
fn another_refusal() {
    let message = |sheet: &[u8], refusal| locate::failure("t", sheet, refusal).to_string();
    assert_eq!(
        message(TABLE_T.as_bytes(), zagvirk::Refusal::BytesLeft),
        "t: bytes follow the last line (refusal 7)"
    );
    assert_eq!(
        message(b"", zagvirk::Refusal::NotRising),
        "t: the transitions do not rise strictly (refusal 6)"
    );
}
