//! Reading and writing of sheets.

use crate::measure::{best_of_both, REPETITIONS};
use crate::plain_sheet;
use zagvirk::{sheet, Machine, Table};

/// The largest machine: 64 states, 250 letters, 4,000 transitions.
fn largest() -> (Machine, Vec<u16>) {
    let marks: Vec<u8> = (0..64)
        .map(|state| [0, 3, 5, 10, 11, 7][state % 6])
        .collect();
    let mut list = Vec::new();
    for number in 0..4000 {
        list.extend([number / 63, number % 63 * 4, 63 - number % 64]);
    }
    (Machine::new(250, 4000, &marks), list)
}

/// Prints the times of the sheet's reader and writer.
pub fn section() {
    println!("Sheets. Megabytes of the sheet per second, best of {REPETITIONS} after a first one.");
    println!("Ratio: time of the proved call / time of plain Rust.");
    println!();
    println!(
        "{:14} {:>6} {:>8} {:>8} {:>6}",
        "call", "bytes", "proved", "plain", "ratio"
    );
    let table_t = vec![0, 0, 1, 1, 0, 2, 1, 1, 1, 1, 2, 1, 2, 1, 2, 2, 2, 2];
    let small = (Machine::new(2, 6, &[5, 0, 10]), table_t);
    for (name, (machine, list), calls) in [("largest", largest(), 10), ("table T", small, 5_000)] {
        let table = Table::new(&machine, &list);
        let bytes = 16 + 11 * machine.states + 16 * machine.transitions;
        let (mut proved_sheet, mut plain_sheet) = (vec![0; bytes], vec![0; bytes]);
        assert_eq!(sheet::write(table, &mut proved_sheet), Ok(bytes));
        assert_eq!(
            plain_sheet::write(&machine, &list, &mut plain_sheet),
            Ok(bytes)
        );
        assert_eq!(proved_sheet, plain_sheet);
        let text = proved_sheet.clone();
        let (mut proved_list, mut plain_list) = (vec![0; list.len()], vec![0; list.len()]);
        assert_eq!(sheet::read(&text, &mut proved_list), Ok(machine));
        assert_eq!(plain_sheet::read(&text, &mut plain_list), Ok(machine));
        assert!(proved_list == list && plain_list == list);
        let read = best_of_both(
            || (0..calls).all(|_| sheet::read(&text, &mut proved_list).is_ok()),
            || (0..calls).all(|_| plain_sheet::read(&text, &mut plain_list).is_ok()),
        );
        let written = best_of_both(
            || (0..calls).all(|_| sheet::write(table, &mut proved_sheet).is_ok()),
            || (0..calls).all(|_| plain_sheet::write(&machine, &list, &mut plain_sheet).is_ok()),
        );
        for (call, (proved, plain)) in [("read", read), ("write", written)] {
            let megabytes = (calls * bytes) as f64 / 1e6;
            println!(
                "{:14} {bytes:6} {:8.1} {:8.1} {:6.2}",
                format!("{call} {name}"),
                megabytes / proved,
                megabytes / plain,
                proved / plain
            );
        }
    }
}
