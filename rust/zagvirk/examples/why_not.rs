use zagvirk::reach::reach;
use zagvirk::{Machine, Refusal, Table};

fn main() -> Result<(), Refusal> {
    let t = Machine::new(2, 6, &[5, 0, 10]); // table T, as above
    let list = [0, 0, 1, 1, 0, 2, 1, 1, 1, 1, 2, 1, 2, 1, 2, 2, 2, 2];
    match reach(Table::new(&t, &list), &[1, 2, 2, 1])?.ground() {
        Some(ground) => println!("no: {ground}"),
        None => println!("yes"),
    }
    Ok(())
}
