//! The machines of the folder `data/machines`: each folder there has a sheet (`table.txt`), words, one a line with
//! letters in columns of five (`words.txt`), and for each word 1 or 0 on a line of its own (`expected.txt`).

use crate::{listing, sheet, Machine};
use std::fs;
use std::path::{Path, PathBuf};

/// One folder.
pub struct Folder {
    pub name: String,
    pub machine: Machine,
    /// Each word, and whether the machine accepts it.
    pub words: Vec<(Vec<u8>, bool)>,
}

/// The folder `data/machines` of the repository.
pub fn place() -> PathBuf {
    Path::new(env!("CARGO_MANIFEST_DIR")).join("../../data/machines")
}

/// All folders, by name.
pub fn all() -> Vec<Folder> {
    let entries = fs::read_dir(place()).expect("the folder data/machines");
    let mut names: Vec<String> = entries
        .map(|entry| entry.expect("an entry").file_name().into_string().unwrap())
        .collect();
    names.sort();
    names.iter().map(|name| load(name)).collect()
}

/// The folder with the name.
pub fn load(name: &str) -> Folder {
    let read = |file: &str| {
        fs::read(place().join(name).join(file)).unwrap_or_else(|e| panic!("{name}/{file}: {e}"))
    };
    let mut list = vec![0; 12_000];
    let record = sheet::read(&read("table.txt"), &mut list)
        .unwrap_or_else(|refusal| panic!("{name}: sheet refused {}", refusal.number));
    let machine = record.machine(&list).expect("a sheet that was read");
    let words = read("words.txt");
    let words = listing::lines(&words);
    let answers = read("expected.txt");
    let answers = listing::lines(&answers);
    assert_eq!(words.len(), answers.len(), "{name}: words and answers");
    let mut judged = Vec::new();
    for (line, answer) in words.iter().zip(answers) {
        let numbers = listing::columns(line).unwrap_or_else(|_| panic!("{name}: a bad line"));
        let word = numbers.iter().map(|&number| number as u8).collect();
        let answer = match answer {
            b"1" => true,
            b"0" => false,
            _ => panic!("{name}: an answer is 1 or 0"),
        };
        judged.push((word, answer));
    }
    Folder {
        name: name.to_string(),
        machine,
        words: judged,
    }
}
