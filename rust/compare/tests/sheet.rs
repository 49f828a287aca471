//! Reading and writing of sheets: the whole result and the whole slice of each call are compared with the reference.

use compare::calls::{read, read_record, write, write_record};
use compare::columns::{blank, starts, zeros};
use compare::{
    break_a_rule, filled, filled_bytes, random_machine, record_of, tally, Rng, NO_MACHINE,
};
use reference::{folder, Machine, Record};
use zagvirk::sheet::{ReadRecord, WrittenRecord};

/// How many cases gave each refusal; 0 is no refusal.
#[derive(Default)]
struct Counts([u64; 21]);

impl Counts {
    fn add(&mut self, refusal: u8) {
        self.0[usize::from(refusal)] += 1;
    }

    /// Compares reading of the bytes into a list of the length, and asserts the refusal, 0 for none.
    fn gives(&mut self, sheet: &[u8], length: usize, refusal: u8) {
        let found = reads(sheet, length);
        let text = String::from_utf8_lossy(&sheet[..sheet.len().min(2000)]);
        assert_eq!(found, refusal, "list of {length} elements\n{text}");
        self.add(refusal);
    }

    fn report(&self, name: &str) {
        let cases: u64 = self.0.iter().sum();
        println!("{name}: {cases} cases (refusal: cases; {})", tally(&self.0));
    }
}

/// Compares reading of the bytes into a list of the length. Returns the refusal or 0.
fn reads(sheet: &[u8], length: usize) -> u8 {
    let mut expected_list = filled(length);
    let expected = match reference::sheet::read(sheet, &mut expected_list) {
        Ok(record) => ReadRecord {
            refusal: 0,
            needed: 0,
            machine: record_of(&record),
        },
        Err(refusal) => ReadRecord {
            refusal: refusal.number,
            needed: refusal.needed,
            machine: NO_MACHINE,
        },
    };
    let mut list = filled(length);
    let found = read_record(sheet, &mut list);
    if found != expected || list != expected_list {
        let text = String::from_utf8_lossy(&sheet[..sheet.len().min(2000)]);
        panic!(
            "read differs, list of {length} elements, the same after the call: {}\n{text:?}\n\
             reference {expected:?}\nproved {found:?}",
            list == expected_list
        );
    }
    expected.refusal
}

/// Compares writing into a slice of the length. Returns the refusal or 0.
fn writes(record: &Record, list: &[u16], length: usize) -> u8 {
    let mut expected_sheet = filled_bytes(length);
    let expected = match reference::sheet::write(record, list, &mut expected_sheet) {
        Ok(bytes) => WrittenRecord {
            refusal: 0,
            needed: 0,
            bytes,
        },
        Err(refusal) => WrittenRecord {
            refusal: refusal.number,
            needed: refusal.needed,
            bytes: 0,
        },
    };
    let mut sheet = filled_bytes(length);
    let found = write_record(&record_of(record), list, &mut sheet);
    if found != expected || sheet != expected_sheet {
        panic!(
            "write differs, slice of {length} bytes, the same after the call: {}\n{record:?}\n{list:?}\n\
             reference {expected:?}\nproved {found:?}",
            sheet == expected_sheet
        );
    }
    expected.refusal
}

/// Asserts that the proved calls read the good sheet into a list of the length as the machine of `same`, a sheet without
/// blanks, and write it as that sheet: the same bytes but for the blanks, which are filled.
fn fills(sheet: &[u8], same: &[u8], length: usize) {
    let text = String::from_utf8_lossy(&sheet[..sheet.len().min(2000)]);
    assert!(reference::sheet::filled(sheet) == same, "filled\n{text}");
    assert!(
        reference::sheet::filled(same) == same,
        "filled twice\n{text}"
    );
    let (mut list, mut same_list) = (filled(length), filled(length));
    let machine = read(sheet, &mut list).expect("a good sheet");
    assert_eq!(read(same, &mut same_list), Ok(machine), "{text}");
    assert!(list == same_list, "the lists differ\n{text}");
    let mut written = filled_bytes(sheet.len() + 3);
    let mut expected = written.clone();
    expected[..same.len()].copy_from_slice(same);
    let bytes = write(&machine, &list, &mut written);
    assert_eq!(bytes, Ok(same.len()), "{text}");
    assert!(written == expected, "read and written\n{text}");
}

/// The bytes of the machine's sheet.
fn sheet_of(machine: &Machine) -> Vec<u8> {
    let (record, list) = machine.record();
    let mut sheet = vec![0; 16 + 11 * record.states + 16 * record.transitions];
    let bytes = reference::sheet::write(&record, &list, &mut sheet);
    assert_eq!(bytes, Ok(sheet.len()));
    sheet
}

/// A sheet with the numbers, whatever they are.
fn text(counts: [usize; 3], marks: &[usize], transitions: &[[usize; 3]]) -> Vec<u8> {
    let mut text = format!("{:5}{:5}{:5}\n", counts[0], counts[1], counts[2]);
    for (state, mark) in marks.iter().enumerate() {
        text += &format!("{state:5}{mark:5}\n");
    }
    for [from, letter, to] in transitions {
        text += &format!("{from:5}{letter:5}{to:5}\n");
    }
    text.into_bytes()
}

fn table_t() -> Vec<u8> {
    let sheet = sheet_of(&folder::load("table-t").machine);
    assert_eq!(sheet.len(), 145);
    sheet
}

/// Where a column of each kind begins in the sheet of table T: states, letters, transitions; the number and the mark of
/// state 1; from, letter and to of a transition.
const COLUMNS: [usize; 8] = [0, 5, 10, 27, 32, 81, 86, 91];

#[test]
fn every_value_of_a_column() {
    let mut counts = Counts::default();
    for at in COLUMNS {
        let mut sheet = table_t();
        for value in 0..100_000 {
            sheet[at..at + 5].copy_from_slice(format!("{value:5}").as_bytes());
            counts.add(reads(&sheet, 20));
        }
    }
    counts.report("read, every value in a column of each kind");
}

#[test]
fn columns_of_few_bytes() {
    let bytes = b" 012a-\n";
    let mut counts = Counts::default();
    for at in COLUMNS {
        let mut sheet = table_t();
        for number in 0..bytes.len().pow(5) {
            for place in 0..5 {
                sheet[at + place] = bytes[number / bytes.len().pow(place as u32) % bytes.len()];
            }
            let refusal = reads(&sheet, 19);
            if refusal == 0 {
                fills(&sheet, &reference::sheet::filled(&sheet), 19);
            }
            counts.add(refusal);
        }
    }
    counts.report("read, columns of the bytes ' ', 0, 1, 2, a, -, line end");
}

#[test]
fn one_byte() {
    let mut counts = Counts::default();
    let good = table_t();
    assert_eq!(reads(&good, 18), 0);
    for at in 0..good.len() {
        counts.add(reads(&good[..at], 20));
        let mut sheet = good.clone();
        sheet.remove(at);
        counts.add(reads(&sheet, 20));
        for byte in 0..=255 {
            let mut sheet = good.clone();
            sheet[at] = byte;
            counts.add(reads(&sheet, 20));
            sheet = good.clone();
            sheet.insert(at, byte);
            counts.add(reads(&sheet, 20));
        }
    }
    for byte in 0..=255 {
        let mut sheet = good.clone();
        sheet.push(byte);
        assert_eq!(reads(&sheet, 20), 7);
        // 7 comes before 15.
        assert_eq!(reads(&sheet, 0), 7);
        counts.add(7);
        counts.add(7);
    }
    counts.report("read, table T with one byte changed, added or removed, and cut at every length");
}

/// One or more things in the sheet changed.
fn damage(rng: &mut Rng, sheet: &mut Vec<u8>) {
    let at = rng.below(sheet.len().max(1));
    match rng.below(11) {
        0 if !sheet.is_empty() => sheet[at] = rng.bits() as u8,
        1 if !sheet.is_empty() => sheet[at] = rng.pick(b" 0123456789\n\r"),
        2 if !sheet.is_empty() => {
            sheet.remove(at);
        }
        3 => sheet.insert(at, rng.pick(b" 0123456789\n\r")),
        4 => sheet.insert(at, rng.bits() as u8),
        5 => sheet.truncate(at),
        6 => sheet.extend_from_slice(rng.pick(&[&b"\n"[..], b" ", b"    0    0    0\n"])),
        7 | 8 => {
            let mut lines: Vec<Vec<u8>> = sheet
                .split_inclusive(|&byte| byte == b'\n')
                .map(<[u8]>::to_vec)
                .collect();
            if lines.len() > 1 {
                let one = rng.below(lines.len());
                let two = match rng.below(3) {
                    0 => rng.below(lines.len()),
                    _ => (one + 1) % lines.len(),
                };
                match rng.below(4) {
                    0 => lines[one] = lines[two].clone(),
                    1 => {
                        lines.remove(one);
                    }
                    _ => lines.swap(one, two),
                }
            }
            *sheet = lines.concat();
        }
        // A column with another number.
        _ if sheet.len() >= 16 => {
            let lines: Vec<usize> = (0..sheet.len())
                .filter(|&i| i == 0 || sheet[i - 1] == b'\n')
                .collect();
            let at = rng.pick(&lines) + 5 * rng.below(3);
            let value = match rng.below(3) {
                0 => rng.below(100_000),
                1 => rng.below(70),
                _ => rng.pick(&[0, 1, 2, 3, 12, 15, 16, 63, 64, 65, 250, 251, 256, 65_536]),
            };
            let column = match rng.below(9) {
                0 => format!("{value:05}"),
                1 => format!("{value:<5}"),
                2 => " ".repeat(5),
                _ => format!("{value:5}"),
            };
            if at + 5 <= sheet.len() {
                sheet[at..at + 5].copy_from_slice(&column.as_bytes()[..5]);
            }
        }
        _ => {}
    }
}

#[test]
fn random_sheets() {
    let mut rng = Rng::new(20_240_005);
    let mut counts = Counts::default();
    let mut same = 0;
    for number in 0..250_000 {
        let machine = random_machine(&mut rng, 5, 4);
        let (record, mut list) = machine.record();
        let needed = list.len();
        let mut sheet = sheet_of(&machine);
        if number % 5 == 0 {
            // Written and read again it is the same machine; read and written again the same bytes.
            let proved = record_of(&record);
            let mut again = filled(needed + 2);
            assert_eq!(read(&sheet, &mut again), Ok(proved));
            assert!(again[..needed] == list && again[needed..] == filled(needed + 2)[needed..]);
            let mut bytes = filled_bytes(sheet.len() + 2);
            assert_eq!(write(&proved, &again, &mut bytes), Ok(sheet.len()));
            assert!(bytes[..sheet.len()] == sheet);
            list.extend((0..rng.below(4)).map(|_| 65_535));
            assert_eq!(writes(&record, &list, sheet.len() + rng.below(3)), 0);
            same += 1;
        }
        if number % 8 != 0 {
            for _ in 0..rng.pick(&[1, 1, 1, 2, 3]) {
                damage(&mut rng, &mut sheet);
            }
        }
        let length = match rng.below(4) {
            0 => rng.below(needed + 1),
            1 => needed,
            _ => needed + rng.below(8),
        };
        let refusal = reads(&sheet, length);
        counts.add(refusal);
        if refusal == 0 {
            fills(&sheet, &reference::sheet::filled(&sheet), length);
        }
        let typed = read(&sheet, &mut filled(length));
        assert_eq!(typed.err().map_or(0, |refused| refused.number()), refusal);
    }
    counts.report("read, random sheets, most of them damaged");
    println!("round trips of sheets: {same} cases each way");
    for number in [0, 1, 2, 3, 4, 5, 6, 7, 15] {
        assert!(counts.0[number] > 100, "refusal {number} is rare");
    }
}

/// Every two faults of table T's lines together: the first in reading order is the one reported.
#[test]
fn two_faults() {
    let good = table_t();
    let lines: Vec<&[u8]> = good.split_inclusive(|&byte| byte == b'\n').collect();
    let mut faults: Vec<(usize, Vec<u8>)> = Vec::new();
    for (number, line) in lines.iter().enumerate() {
        let columns = line.len() / 5;
        for column in 0..columns {
            for new in [
                "    9", "   99", "  251", " 4001", "65537", "99999", "    0", "    1", "   12",
                "   16", "  007", "     ", "1    ", "   -1", "    a",
            ] {
                let mut changed = line.to_vec();
                changed[5 * column..5 * column + 5].copy_from_slice(new.as_bytes());
                faults.push((number, changed));
            }
        }
        let mut changed = line.to_vec();
        changed.pop();
        faults.push((number, changed.clone()));
        changed.extend(b"\r\n");
        faults.push((number, changed.clone()));
        changed.pop();
        faults.push((number, changed));
        faults.push((number, vec![]));
        faults.push((number, [line, *line].concat()));
    }
    let mut counts = Counts::default();
    for (one, first) in &faults {
        for (two, second) in &faults {
            if one >= two {
                continue;
            }
            let mut sheet = Vec::new();
            for (number, line) in lines.iter().enumerate() {
                if number == *one {
                    sheet.extend(first);
                } else if number == *two {
                    sheet.extend(second);
                } else {
                    sheet.extend(*line);
                }
            }
            counts.add(reads(&sheet, 18));
        }
    }
    counts.report("read, table T with two lines damaged");
}

#[test]
fn fixed_examples() {
    let mut counts = Counts::default();
    let mut gives = |sheet: &[u8], refusal: u8| counts.gives(sheet, 12_003, refusal);
    gives(b"", 1);
    gives(b"    1    0    0", 1);
    gives(b"    1    0    0\n", 1);
    gives(b"    1    0    0\n    0    0\n", 0);
    gives(b"    1    0    0\n    0    0\n\n", 7);
    gives(b"    1    0    0\r\n    0    0\r\n", 2);
    // A short line one with more behind it.
    gives(b"    1    0\n    0    0\n", 2);
    // 3 in line one comes before 1 in line two.
    gives(b"    0    0    0\n", 3);
    gives(b"65537    0    0\n    0    0\n", 3);
    gives(b"  001    0    0\n    0    0\n", 2);
    gives(b"         0    0\n    0    0\n", 3);
    gives(b"    1    0    0\n    0   12\n", 4);
    gives(b"    1    0    0\n    0   16\n", 4);
    gives(b"    1    0    0\n    0  256\n", 4);
    gives(b"    1    0    0\n    1    0\n", 4);
    gives(b"    1    1    1\n    0    0\n    1    0    0\n", 5);
    gives(b"    1    1    1\n    0    0\n    0    2    0\n", 5);
    gives(b"    1    1    1\n    0    0\n    0    0    1\n", 5);
    gives(b"    1    1    1\n    0    0\n65536    0    0\n", 5);
    let two = b"    1    1    2\n    0    0\n    0    1    0\n";
    gives(&[&two[..], b"    0    1    0\n"].concat(), 6);
    gives(&[&two[..], b"    0    0    0\n"].concat(), 6);
    // 5 before 6 in one line.
    gives(&[&two[..], b"    0    0    1\n"].concat(), 5);
    gives(&[&two[..], b"    0    0    0"].concat(), 1);
    gives(&[&two[..], b"    0    0    0 "].concat(), 2);
    counts.report("read, examples with the refusal said here");
}

/// Blank columns, with what follows said here: the refusal, or for a good sheet the one that it comes back as.
#[test]
fn blank_examples() {
    let mut counts = Counts::default();
    let mut good = 0;
    let t = String::from_utf8(table_t()).expect("a text");
    let with = |old: &str, new: &str| {
        assert!(t.contains(old), "{old:?}");
        t.replacen(old, new, 1)
    };
    let mut is_t = |sheet: &str| {
        counts.gives(sheet.as_bytes(), 20, 0);
        fills(sheet.as_bytes(), t.as_bytes(), 20);
        good += 1;
    };
    // A blank mark is 0, a blank letter reads nothing, a blank from is state 0, as is the number of state 0; all of these.
    is_t(&with("\n    1    0\n", "\n    1     \n"));
    is_t(&with("    1    0    2\n", "    1         2\n"));
    is_t(&with("    0    0    1\n", "         0    1\n"));
    is_t(&with("    0    0    1\n", "              1\n"));
    is_t(&with("\n    0    5\n", "\n         5\n"));
    is_t(&t.replace("    0", "     "));
    let mut is = |sheet: &[u8], same: &[u8]| {
        counts.gives(sheet, 20, 0);
        fills(sheet, same, 20);
        good += 1;
    };
    // A blank to is state 0; no letters, no transitions, no marks.
    let two = b"    2    1    1\n    0    1\n    1    2\n    1    1    0\n";
    is(
        b"    2    1    1\n    0    1\n    1    2\n    1    1     \n",
        two,
    );
    let least = b"    1    0    0\n    0    0\n";
    is(b"    1         0\n    0    0\n", least);
    is(b"    1    0     \n    0    0\n", least);
    is(b"    1          \n          \n", least);
    let loops = b"    1    0    1\n    0    3\n    0    0    0\n";
    is(b"    1         1\n         3\n               \n", loops);
    // What a blank column makes of the rest of a sheet.
    let mut gives = |sheet: &str, refusal: u8| counts.gives(sheet.as_bytes(), 20, refusal);
    gives(&with("    3    2    6", "         2    6"), 3);
    gives(&" ".repeat(145), 2);
    gives("               \n", 3);
    gives(&with("    3    2    6", "    3         6"), 5);
    gives(&with("    3    2    6", "    3    2     "), 7);
    gives(&with("\n    1    0\n", "\n         0\n"), 4);
    gives(&with("\n    2   10\n", "\n        10\n"), 4);
    // Lines that differ by a blank alone are equal; one that falls by a blank.
    gives(&with("    1    0    2", "    0         1"), 6);
    gives(&with("    1    0    2", "         0    1"), 6);
    gives(&with("    1    0    2", "              1"), 6);
    gives(&with("    1    2    1", "    1         1"), 6);
    gives(&with("    2    1    2", "         1    2"), 6);
    // One that rises still: 2 2 0 behind 2 1 2.
    gives(&with("    2    2    2", "    2    2     "), 0);
    // In one line 1 comes before 2, and 2 before what a blank is.
    gives("              ", 1);
    gives("                ", 2);
    gives(&with("    3    2    6", "         x    6"), 2);
    gives(&with("    3    2    6\n", "         2    6 "), 2);
    gives(&with("\n    1    0\n", "\n         x\n"), 2);
    // Part of a column is blank.
    gives(&with("    3    2    6", "    3   2     6"), 2);
    gives(&with("\n    1    0\n", "\n    1   0 \n"), 2);
    gives(&with("\n    1    0\n", "\n    1    \t\n"), 2);
    gives(&with("\n    1    0\n", "\n    1    \n"), 2);
    // After a blank last column 7, then 15.
    gives(&(with("    2    2    2", "    2    2     ") + "     "), 7);
    counts.gives(with("    0", "     ").as_bytes(), 17, 15);
    counts.report("read, blank columns with what follows said here");
    println!("read and written, blanks filled: {good} examples");
}

/// Blanks all the columns. Compares reading into a list of the length. A good sheet comes back filled, and is that sheet
/// if `same` has it.
fn blanked(sheet: &[u8], columns: &[usize], length: usize, same: Option<&[u8]>) -> u8 {
    let mut sheet = sheet.to_vec();
    blank(&mut sheet, columns);
    let refusal = reads(&sheet, length);
    if let Some(same) = same {
        assert_eq!(refusal, 0, "{}", String::from_utf8_lossy(&sheet));
        fills(&sheet, same, length);
    } else if refusal == 0 {
        fills(&sheet, &reference::sheet::filled(&sheet), length);
    }
    refusal
}

/// Random good sheets in which columns are left out: first such that hold 0, then any.
#[test]
fn blanked_columns() {
    let mut rng = Rng::new(20_240_081);
    let mut counts = Counts::default();
    let (sheets, mut zeros_left_out) = (200_000, 0);
    for _ in 0..sheets {
        let machine = random_machine(&mut rng, 5, 4);
        let needed = 3 * machine.transitions.len();
        let good = sheet_of(&machine);
        let mut left_out = zeros(&good);
        match rng.below(4) {
            0 => {}
            1 => left_out.retain(|_| rng.once_in(5)),
            _ => left_out.retain(|_| rng.once_in(2)),
        }
        zeros_left_out += left_out.len();
        blanked(&good, &left_out, needed + 2, Some(&good));
        let all = starts(&good);
        for _ in 0..rng.pick(&[1, 1, 2, 3]) {
            left_out.push(rng.pick(&all));
        }
        counts.add(blanked(&good, &left_out, needed + 2, None));
        left_out.clear();
        left_out.push(rng.pick(&all));
        counts.add(blanked(&good, &left_out, needed + 2, None));
    }
    println!("read and written, zeros left out: {sheets} sheets, {zeros_left_out} blank columns");
    counts.report("read, any columns left out of random sheets");
    for number in [0, 3, 4, 5, 6, 7] {
        assert!(counts.0[number] > 1000, "refusal {number} is rare");
    }
    // No count grows, so no line is cut short, and a blank column is a number.
    assert_eq!((counts.0[1], counts.0[2]), (0, 0));
}

/// Every set of zeros of table T left out; every one and every two columns of each machine of data/machines; the zeros of
/// the largest machine, and each of its last columns.
#[test]
fn blanked_columns_of_machines() {
    let t = table_t();
    let of_t = zeros(&t);
    assert_eq!(of_t, [16, 32, 49, 54, 70]);
    for set in 0..1 << of_t.len() {
        let mut left_out = of_t.clone();
        left_out.retain(|at| set >> of_t.iter().position(|other| other == at).unwrap() & 1 == 1);
        assert_eq!(blanked(&t, &left_out, 18, Some(&t)), 0);
    }
    println!("read and written, every set of zeros of table T left out: 32 cases");
    let mut counts = Counts::default();
    for folder in folder::all() {
        let sheet = sheet_of(&folder.machine);
        let length = 3 * folder.machine.transitions.len();
        assert_eq!(blanked(&sheet, &zeros(&sheet), length, Some(&sheet)), 0);
        let all = starts(&sheet);
        for (index, &one) in all.iter().enumerate() {
            for &two in &all[index..] {
                counts.add(blanked(&sheet, &[one, two], length, None));
            }
        }
    }
    counts.report("read, every one and every two columns of data/machines left out");
    let (marks, transitions) = largest();
    let largest = text([64, 250, 4000], &marks, &transitions);
    let all = zeros(&largest);
    assert_eq!(blanked(&largest, &all, 12_003, Some(&largest)), 0);
    for &at in &all {
        assert_eq!(blanked(&largest, &[at], 12_003, Some(&largest)), 0);
    }
    let mut counts = Counts::default();
    for &at in starts(&largest).iter().rev().take(60) {
        counts.add(blanked(&largest, &[at], 12_003, None));
    }
    counts.report("read, the last columns of the largest machine left out");
    println!(
        "read and written, zeros of the largest machine left out: {}, and all",
        all.len()
    );
}

/// The largest machine: 64 states, 250 letters, 4,000 transitions, all rising.
fn largest() -> (Vec<usize>, Vec<[usize; 3]>) {
    let marks: Vec<usize> = (0..64)
        .map(|state| [0, 3, 5, 10, 11, 7][state % 6])
        .collect();
    let mut transitions: Vec<[usize; 3]> = (0..4000)
        .map(|number| {
            [
                number / 63,
                (number % 63) * 4 - (number % 63) / 32,
                63 - number % 64,
            ]
        })
        .collect();
    transitions[3999] = [63, 250, 63];
    (marks, transitions)
}

#[test]
fn limits() {
    let mut counts = Counts::default();
    let (marks, transitions) = largest();
    let good = text([64, 250, 4000], &marks, &transitions);
    assert_eq!(good.len(), 64_720);
    for length in [12_000, 12_001, 12_002, 12_003, 20_000] {
        counts.gives(&good, length, 0);
    }
    for length in (0..12_000).step_by(97).chain(11_990..12_000) {
        counts.gives(&good, length, 15);
    }
    for length in (0..64_720).step_by(701).chain(64_700..64_720) {
        counts.gives(&good[..length], 12_000, 1);
    }
    for more in [&b"\n"[..], b"0", b"   63  250   63\n", &[0; 100_000]] {
        counts.gives(&[&good[..], more].concat(), 12_000, 7);
        counts.gives(&[&good[..], more].concat(), 5, 7);
    }
    // One past each limit, with all lines there.
    let mut more_marks = marks.clone();
    more_marks.push(0);
    counts.gives(&text([65, 250, 4000], &more_marks, &transitions), 12_003, 3);
    counts.gives(&text([64, 251, 4000], &marks, &transitions), 12_003, 3);
    let mut more = transitions.clone();
    more.insert(0, [0, 0, 0]);
    counts.gives(&text([64, 250, 4001], &marks, &more), 12_003, 3);
    counts.gives(&text([64, 250, 4000], &marks, &more), 12_003, 7);
    // The least counts.
    counts.gives(&text([1, 0, 0], &[0], &[]), 0, 0);
    counts.gives(&text([1, 0, 0], &[0], &[]), 1, 0);
    counts.gives(&text([0, 0, 0], &[], &[]), 1, 3);
    counts.gives(&text([1, 0, 1], &[0], &[[0, 0, 0]]), 3, 0);
    counts.gives(&text([1, 0, 1], &[0], &[[0, 1, 0]]), 3, 5);
    counts.gives(&text([64, 0, 0], &[0; 64], &[]), 0, 0);
    counts.gives(&text([65, 0, 0], &[0; 65], &[]), 0, 3);
    counts.gives(&text([1, 250, 1], &[0], &[[0, 250, 0]]), 3, 0);
    counts.gives(&text([1, 250, 1], &[0], &[[0, 251, 0]]), 3, 5);
    counts.gives(&text([1, 251, 1], &[0], &[[0, 250, 0]]), 3, 3);
    // A fault in the last two lines of the largest sheet.
    for (changed, refusal) in [
        ([63, 250, 64], 5),
        ([64, 250, 63], 5),
        ([63, 251, 63], 5),
        (transitions[3998], 6),
        ([0, 0, 0], 6),
        ([transitions[3998][0], transitions[3998][1], 0], 6),
    ] {
        let mut other = transitions.clone();
        other[3999] = changed;
        counts.gives(&text([64, 250, 4000], &marks, &other), 12_000, refusal);
    }
    // Every mark.
    for mark in 0..300 {
        let refusal = if mark < 16 && mark & 12 != 12 { 0 } else { 4 };
        counts.gives(&text([1, 0, 0], &[mark], &[]), 0, refusal);
    }
    counts.report("read, limits and one past them");
}

/// The reader keeps at most 64 transitions in a smaller array than more of them.
#[test]
fn around_the_smaller_array() {
    let mut counts = Counts::default();
    let (marks, all) = largest();
    for number in [62, 63, 64, 65, 66] {
        let transitions = &all[..number];
        let needed = 3 * number;
        let good = text([64, 250, number], &marks, transitions);
        for length in 0..needed + 4 {
            counts.gives(&good, length, if length < needed { 15 } else { 0 });
        }
        counts.gives(&good[..good.len() - 1], needed, 1);
        for length in [0, needed, needed + 5] {
            counts.gives(&[&good[..], b"\n"].concat(), length, 7);
        }
        for (changed, refusal) in [
            ([64, 250, 0], 5),
            ([0, 251, 0], 5),
            (transitions[number - 2], 6),
        ] {
            let mut other = transitions.to_vec();
            other[number - 1] = changed;
            counts.gives(&text([64, 250, number], &marks, &other), needed, refusal);
        }
        let more = text([64, 250, number], &marks, &all[..number + 1]);
        counts.gives(&more, needed + 3, 7);
    }
    counts.report("read, 62 to 66 transitions");
}

#[test]
fn every_list_too_short() {
    let mut counts = Counts::default();
    for folder in folder::all() {
        let sheet = sheet_of(&folder.machine);
        let needed = 3 * folder.machine.transitions.len();
        for length in 0..needed + 4 {
            let refusal = reads(&sheet, length);
            assert_eq!(refusal, if length < needed { 15 } else { 0 });
            counts.add(refusal);
        }
    }
    counts.report("read, machines of data/machines with lists of every length");
}

#[test]
fn writing() {
    let mut counts = Counts::default();
    for folder in folder::all() {
        let (record, list) = folder.machine.record();
        let needed = 16 + 11 * record.states + 16 * record.transitions;
        for length in 0..needed + 20 {
            let refusal = writes(&record, &list, length);
            assert_eq!(refusal, if length < needed { 19 } else { 0 });
            counts.add(refusal);
        }
    }
    let mut rng = Rng::new(20_240_006);
    for _ in 0..100_000 {
        let machine = random_machine(&mut rng, 8, 5);
        let (record, list) = match rng.below(3) {
            0 => break_a_rule(&mut rng, &machine),
            _ => machine.record(),
        };
        let needed = 16 + 11 * machine.states() + 16 * machine.transitions.len();
        let length = match rng.below(4) {
            0 => rng.below(needed),
            1 => needed,
            _ => needed + rng.below(40),
        };
        counts.add(writes(&record, &list, length));
    }
    let (marks, transitions) = largest();
    let mut all_marks = [0; 64];
    for (kept, mark) in all_marks.iter_mut().zip(marks) {
        *kept = mark as u8;
    }
    let record = Record {
        states: 64,
        letters: 250,
        transitions: 4000,
        marks: all_marks,
    };
    let mut list: Vec<u16> = transitions.concat().iter().map(|&n| n as u16).collect();
    for (length, refusal) in [(64_719, 19), (64_720, 0), (64_721, 0), (70_000, 0), (0, 19)] {
        assert_eq!(writes(&record, &list, length), refusal);
        counts.add(refusal);
    }
    list.extend([0, 0, 0, 65_535]);
    assert_eq!(writes(&record, &list, 65_000), 0);
    // One past each limit.
    let mut other = record.clone();
    other.transitions = 4001;
    assert_eq!(writes(&other, &list, 65_000), 16);
    other = record.clone();
    other.letters = 251;
    assert_eq!(writes(&other, &list, 65_000), 16);
    other = record.clone();
    other.states = 65;
    assert_eq!(writes(&other, &list, 65_000), 16);
    // 16 comes before 19.
    assert_eq!(writes(&other, &list, 0), 16);
    counts.report("write, machines good and broken, slices of many lengths");
    for number in [0, 16, 19] {
        assert!(counts.0[number] > 10_000, "refusal {number} is rare");
    }
}

#[test]
fn c_program() {
    let printed = compare::c::program("sheet", env!("CARGO_TARGET_TMPDIR"));
    assert_eq!(printed, "sheets are read and written right from C\n");
    print!("{printed}");
}
