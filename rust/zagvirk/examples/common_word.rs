//! Searches for a shortest word that table T (doubled words over letters 1 and 2) has in common with each of two plain
//! machines, and checks both runs with the proved `check_run`.

use zagvirk::common::{find, needed};
use zagvirk::{check_run, Machine, Table};

fn main() {
    let doubled = Machine::new(2, 6, &[5, 0, 10]);
    let doubled_list = [0, 0, 1, 1, 0, 2, 1, 1, 1, 1, 2, 1, 2, 1, 2, 2, 2, 2];
    let table_t = Table::new(&doubled, &doubled_list);
    let plain = Machine::new(2, 4, &[1, 2]);
    let some_two = [0, 1, 0, 0, 2, 1, 1, 1, 1, 1, 2, 1];
    let odd_ones = [0, 1, 1, 0, 2, 0, 1, 1, 0, 1, 2, 1];
    for (name, list) in [("some 2", some_two), ("odd number of 1", odd_ones)] {
        print!("table T with \"{name}\": ");
        let table = Table::new(&plain, &list);
        let common = match find(table_t, table) {
            Ok(Some(common)) => common,
            Ok(None) => {
                println!("no common word");
                continue;
            }
            Err(refusal) => {
                println!("{refusal}");
                continue;
            }
        };
        println!("shortest common word {}", numbers(&common.word));
        println!("  run of table T: {}", numbers(&common.first_run));
        println!("  run of \"{name}\": {}", numbers(&common.second_run));
        let first = check_run(table_t, &common.word, &common.first_run);
        let second = check_run(table, &common.word, &common.second_run);
        if first == Ok(true) && second == Ok(true) {
            println!("  both runs accept the word");
        }
        let needed = needed(&doubled, common.word.len());
        println!(
            "  a caller's slices need {}, {} and {} elements",
            needed.word, needed.first_run, needed.second_run
        );
    }
}

/// The numbers with spaces between them.
fn numbers<T: ToString>(list: &[T]) -> String {
    let each: Vec<String> = list.iter().map(T::to_string).collect();
    each.join(" ")
}
