//! Follows a run of table T (doubled words over letters 1 and 2) entry by entry with the proved `step`, then checks it
//! whole with the proved `check_run`.

use zagvirk::{
    check_run, step, Config, Machine, Mode, Table, BACK_TO_NORMAL, BEGIN_BUFFERING, BEGIN_EMPTYING,
};

fn main() {
    let machine = Machine::new(2, 6, &[5, 0, 10]);
    let list = [0, 0, 1, 1, 0, 2, 1, 1, 1, 1, 2, 1, 2, 1, 2, 2, 2, 2];
    let table = Table::new(&machine, &list);
    let word = [1, 2, 1, 2];
    let run = [
        0,
        BEGIN_BUFFERING,
        0,
        2,
        3,
        1,
        BEGIN_EMPTYING,
        4,
        5,
        BACK_TO_NORMAL,
    ];

    println!("table T, word 1 2 1 2");
    println!(
        "{:>6} {:>6} {:>10} {:>6} {:>8}",
        "entry", "state", "mode", "read", "buffer"
    );
    let mut config = Config::initial(run[0] as usize);
    show("start", &config, &word);
    for &entry in &run[1..] {
        match step(table, &word, config, entry) {
            Ok(Some(next)) => config = next,
            Ok(None) => return println!("entry {entry} is not allowed"),
            Err(refusal) => return println!("refused: {}", refusal.number()),
        }
        show(&entry.to_string(), &config, &word);
    }
    match check_run(table, &word, &run) {
        Ok(true) => println!("the run accepts the word"),
        Ok(false) => println!("the run does not accept the word"),
        Err(refusal) => println!("refused: {}", refusal.number()),
    }
}

fn show(entry: &str, config: &Config, word: &[u8]) {
    let mode = match config.mode {
        Mode::Normal => "normal",
        Mode::Buffering => "buffering",
        Mode::Emptying => "emptying",
    };
    let buffer: Vec<String> = word[config.start..config.end]
        .iter()
        .map(u8::to_string)
        .collect();
    println!(
        "{:>6} {:>6} {:>10} {:>6} {:>8}",
        entry,
        config.state,
        mode,
        config.position,
        buffer.join(" ")
    );
}
