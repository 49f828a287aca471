use zagvirk::recognize::{recognize, run_length};
use zagvirk::{Machine, Refusal, Table};

fn main() -> Result<(), Refusal> {
    let t = Machine::new(2, 6, &[5, 0, 10]); // table T: 2 letters, 6 transitions; the marks of 3 states
    let list = [0, 0, 1, 1, 0, 2, 1, 1, 1, 1, 2, 1, 2, 1, 2, 2, 2, 2]; // from, letter, to
    let mut run = vec![0; run_length(&t, 4)];
    match recognize(Table::new(&t, &list), &[1, 2, 1, 2], &mut run)? {
        Some(entries) => println!("yes, by the run {:?}", &run[..entries]),
        None => println!("no"),
    }
    Ok(())
}
