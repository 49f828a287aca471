//! The tables of `data/languages` and of `data/board`, and what their READMEs say of them.

use compare::calls::{accept_words, check_run, find, read, recognize, translate, write, Words};
use compare::filled_bytes;
use reference::{common, published, sheet, spelling};
use std::collections::BTreeSet;
use std::fs;
use std::path::{Path, PathBuf};
use std::process::Command;
use zagvirk::Table;

/// A file or folder of `data`.
fn place(name: &str) -> PathBuf {
    Path::new(env!("CARGO_MANIFEST_DIR"))
        .join("../../data")
        .join(name)
}

/// The text of a file of `data`.
fn text(name: &str) -> String {
    fs::read_to_string(place(name)).unwrap_or_else(|e| panic!("data/{name}: {e}"))
}

/// The folders of `data/languages`, by name.
fn folders() -> BTreeSet<String> {
    let entries = fs::read_dir(place("languages")).expect("the folder data/languages");
    let entries = entries.map(|entry| entry.expect("an entry"));
    let folders = entries.filter(|entry| entry.path().is_dir());
    folders
        .map(|entry| entry.file_name().into_string().unwrap())
        .collect()
}

/// A table as the library and as the reference read it.
struct Both {
    machine: zagvirk::Machine,
    list: Vec<u16>,
    reference: reference::Machine,
}

impl Both {
    /// The table of a sheet of `data`, which both read alike and write back to the byte.
    fn load(name: &str) -> Both {
        let text = text(name);
        let mut list = vec![0; 12_000];
        let machine = read(text.as_bytes(), &mut list)
            .unwrap_or_else(|refusal| panic!("data/{name}: refusal {}", refusal.number()));
        list.truncate(3 * machine.transitions);
        let mut known = vec![0; 12_000];
        let record = sheet::read(text.as_bytes(), &mut known).expect("a sheet that was read");
        assert_eq!(list, known[..list.len()], "data/{name}");
        let mut written = vec![0; text.len()];
        assert_eq!(write(&machine, &list, &mut written), Ok(text.len()));
        assert_eq!(written, text.as_bytes(), "data/{name}");
        let reference = record.machine(&list).expect("a sheet that was read");
        assert_eq!(
            machine.letters, 28,
            "data/{name}: a to z, hyphen, apostrophe"
        );
        Both {
            machine,
            list,
            reference,
        }
    }

    fn table(&self) -> Table<'_> {
        Table::new(&self.machine, &self.list)
    }

    /// What the library answers for each word, asked as a list and one by one with a run; each answer is the
    /// reference's too.
    fn answers(&self, name: &str, words: &[Vec<u8>]) -> Vec<bool> {
        let mut bytes = filled_bytes(words.len());
        let answered = accept_words(&self.machine, &self.list, &Words::of(words), &mut bytes);
        assert_eq!(answered, Ok(words.len()), "{name}");
        let mut answers = Vec::new();
        for (word, byte) in words.iter().zip(bytes) {
            let yes = zagvirk::accepts::answer(byte)
                .unwrap_or_else(|refusal| panic!("{name} {word:?}: refusal {}", refusal.number()));
            let by_reference = published::find_run(&self.reference, word).is_some();
            assert_eq!(yes, by_reference, "{name} {word:?}: the reference");
            let mut run = vec![0; zagvirk::recognize::run_length(&self.machine, word.len())];
            let entries = recognize(&self.machine, &self.list, word, &mut run).unwrap();
            assert_eq!(entries.is_some(), yes, "{name} {word:?}: recognition");
            if let Some(entries) = entries {
                let run = &run[..entries];
                assert_eq!(
                    check_run(&self.machine, &self.list, word, run),
                    Ok(true),
                    "{name} {word:?}"
                );
            }
            answers.push(yes);
        }
        answers
    }
}

/// The letters of a spelled word.
fn letters(spelled: &str) -> Vec<u8> {
    let mut word = filled_bytes(spelled.len());
    let found = translate(spelled.as_bytes(), &mut word);
    assert_eq!(found, Ok(spelled.len()), "{spelled}");
    let expected: Option<Vec<u8>> = spelled.bytes().map(spelling::letter).collect();
    assert_eq!(Some(&word), expected.as_ref(), "{spelled}");
    word
}

/// The spelled word of letters.
fn spelled(word: &[u8]) -> String {
    let alphabet = b"abcdefghijklmnopqrstuvwxyz-'";
    word.iter()
        .map(|&letter| char::from(alphabet[usize::from(letter) - 1]))
        .collect()
}

/// The spelled words of a folder of `data/languages`, and their answers.
fn words_of(name: &str) -> (Vec<String>, Vec<bool>) {
    let words = text(&format!("languages/{name}/words.txt"));
    let answers = text(&format!("languages/{name}/answers.txt"));
    assert!(words.ends_with('\n') && answers.ends_with('\n'), "{name}");
    let answers: Vec<bool> = answers
        .lines()
        .map(|line| match line {
            "yes" => true,
            "no" => false,
            _ => panic!("{name}: an answer is yes or no, not {line}"),
        })
        .collect();
    let words: Vec<String> = words.lines().map(str::to_string).collect();
    assert_eq!(words.len(), answers.len(), "{name}: words and answers");
    (words, answers)
}

#[test]
fn languages() {
    let (mut folders_run, mut words_run, mut yes) = (0, 0, 0);
    for name in folders() {
        let table = Both::load(&format!("languages/{name}/table.txt"));
        let (words, expected) = words_of(&name);
        let different: BTreeSet<&String> = words.iter().collect();
        assert_eq!(
            different.len(),
            words.len(),
            "{name}: a word is there twice"
        );
        let word_letters: Vec<Vec<u8>> = words.iter().map(|word| letters(word)).collect();
        let answers = table.answers(&name, &word_letters);
        for (word, (found, expected)) in words.iter().zip(answers.iter().zip(&expected)) {
            assert_eq!(found, expected, "{name} {word}");
        }
        let accepted = answers.iter().filter(|&&answer| answer).count();
        assert!(accepted >= 1, "{name}: a word that is accepted");
        assert!(words.len() >= 12, "{name}: twelve words");
        assert!(words.len() - accepted >= 5, "{name}: five wrong words");
        folders_run += 1;
        words_run += words.len();
        yes += accepted;
    }
    println!("data/languages: {folders_run} tables, {words_run} words, {yes} of them accepted");
}

/// The table of `total-hyphen-indonesian` takes a word with a hyphen behind exactly if the word is some part twice with
/// a hyphen between.
#[test]
fn hyphen_behind() {
    let table = Both::load("languages/total-hyphen-indonesian/table.txt");
    // Every word of at most 7 letters over a, b and the hyphen.
    let (mut all, mut last) = (vec![String::new()], vec![String::new()]);
    for _ in 0..7 {
        last = last
            .iter()
            .flat_map(|word| ["a", "b", "-"].map(|letter| format!("{word}{letter}")))
            .collect();
        all.extend_from_slice(&last);
    }
    let behind: Vec<Vec<u8>> = all
        .iter()
        .map(|word| letters(&format!("{word}-")))
        .collect();
    let answers = table.answers("total-hyphen-indonesian", &behind);
    for (word, found) in all.iter().zip(&answers) {
        let mut halves = word.split('-');
        let (first, second, more) = (halves.next(), halves.next(), halves.next());
        let doubled = first == second && first != Some("") && more.is_none();
        assert_eq!(*found, doubled, "{word}");
    }
    let yes = answers.iter().filter(|&&answer| answer).count();
    println!(
        "data/languages, a hyphen behind: {} words, {yes} of them accepted",
        all.len()
    );
}

/// The folders that stand first in a row of the README's tables.
#[test]
fn index() {
    let readme = text("languages/README.md");
    let named: Vec<&str> = readme
        .lines()
        .filter_map(|line| line.strip_prefix("| `")?.split_once("` |"))
        .map(|(name, _)| name)
        .collect();
    let set: BTreeSet<String> = named.iter().map(|name| name.to_string()).collect();
    assert_eq!(set.len(), named.len(), "a folder is there twice");
    assert_eq!(set, folders());
    // Whatever else is named as a folder is one.
    let mentioned = readme.split('`').skip(1).step_by(2);
    let mentioned = mentioned.filter(|name| {
        name.contains('-') && name.bytes().all(|b| b.is_ascii_lowercase() || b == b'-')
    });
    for name in mentioned {
        assert!(set.contains(name), "{name} is no folder");
    }
    for name in &set {
        let readme = text(&format!("languages/{name}/README.md"));
        assert!(readme.starts_with("# "), "{name}: a title");
    }
    println!("data/languages/README.md: {} folders", set.len());
}

/// The grep pattern of each README gives the same answers.
#[test]
fn patterns() {
    let grep = |pattern: &str, file: &Path| {
        let mut grep = Command::new("grep");
        grep.args(["-nE", "-e", pattern]).arg(file);
        grep.env("LC_ALL", "C").output()
    };
    if Command::new("grep").arg("--version").output().is_err() {
        println!("data/languages, patterns: skipped, there is no grep");
        return;
    }
    let mut words_run = 0;
    for name in folders() {
        let readme = text(&format!("languages/{name}/README.md"));
        let patterns = readme.lines().filter_map(|line| {
            line.strip_prefix("    grep -E '")
                .and_then(|line| line.strip_suffix('\''))
        });
        let [pattern] = patterns.collect::<Vec<_>>()[..] else {
            panic!("{name}: one grep pattern");
        };
        let (words, answers) = words_of(&name);
        let file = place(&format!("languages/{name}/words.txt"));
        let output = grep(pattern, &file).expect("grep");
        assert!(output.stderr.is_empty(), "{name}: {output:?}");
        let printed = String::from_utf8(output.stdout).unwrap();
        let expected = (1..).zip(words.iter().zip(&answers));
        let expected: String = expected
            .filter(|(_, (_, &answer))| answer)
            .map(|(number, (word, _))| format!("{number}:{word}\n"))
            .collect();
        assert_eq!(printed, expected, "{name}: {pattern}");
        words_run += words.len();
    }
    println!("data/languages, patterns: {words_run} words by grep");
}

/// The shell lines of the README make the table that it says.
#[test]
fn recipe() {
    let readme = text("languages/README.md");
    let (_, lines) = readme.split_once("```sh\n").expect("shell lines");
    let (lines, _) = lines.split_once("```").expect("their end");
    let folder = Path::new(env!("CARGO_TARGET_TMPDIR")).join("languages-recipe");
    fs::create_dir_all(&folder).unwrap();
    let mut shell = Command::new("sh");
    let status = shell.args(["-eu", "-c", lines]).current_dir(&folder);
    assert!(status.status().expect("sh").success());
    let made = fs::read_to_string(folder.join("table.txt")).unwrap();
    assert_eq!(made, text("languages/initial-cv-tagalog/table.txt"));
    println!("data/languages/README.md: its shell lines make initial-cv-tagalog");
}

/// All words of a plain table without a cycle, spelled.
fn all_words(machine: &reference::Machine) -> BTreeSet<String> {
    let mut words = BTreeSet::new();
    let starts = (0..machine.states()).filter(|&state| machine.has(state, reference::INITIAL));
    let mut paths: Vec<(usize, Vec<u8>)> = starts.map(|state| (state, vec![])).collect();
    while let Some((state, word)) = paths.pop() {
        assert!(word.len() < machine.states(), "a cycle");
        if machine.has(state, reference::FINAL) {
            words.insert(spelled(&word));
        }
        for t in machine.transitions.iter().filter(|t| t.from == state) {
            paths.push((t.to, [word.as_slice(), &[t.letter as u8]].concat()));
        }
    }
    words
}

#[test]
fn board() {
    let readme = text("board/README.md");
    let mut asked = Vec::new();
    for line in readme.lines() {
        let Some((_, row)) = line.split_once("| `zagvirk common ") else {
            continue;
        };
        let (tables, answer) = row
            .split_once("` | `")
            .expect("the command, then the answer");
        let (answer, _) = answer.split_once('`').expect("the answer's end");
        let (first, second) = tables.split_once(' ').expect("two tables");
        let load = |name: &str| Both::load(name.strip_prefix("data/").expect("a file of data"));
        let (one, two) = (load(first), load(second));
        let found = find(one.table(), two.table()).expect("two tables that are not refused");
        let said = match &found {
            None => "no common word".to_string(),
            Some(found) => {
                let word = &found.word;
                for (table, run) in [(&one, &found.first_run), (&two, &found.second_run)] {
                    assert_eq!(check_run(&table.machine, &table.list, word, run), Ok(true));
                    assert!(published::find_run(&table.reference, word).is_some());
                }
                spelled(word)
            }
        };
        assert_eq!(said, answer, "{tables}");
        let least = common::least_letters(&one.reference, &two.reference);
        assert_eq!(found.map(|found| found.word.len()), least, "{tables}");
        asked.push(second.to_string());
    }
    assert_eq!(
        asked,
        ["data/board/forbidden.txt", "data/board/harmless.txt"]
    );

    // What else the README says.
    let doubling = Both::load("board/doubling.txt");
    assert_eq!(
        text("board/doubling.txt"),
        text("languages/total-indonesian/table.txt")
    );
    let forbidden = Both::load("board/forbidden.txt");
    let list = text("board/forbidden-words.txt");
    let list: BTreeSet<String> = list.lines().map(str::to_string).collect();
    assert_eq!(all_words(&forbidden.reference), list);
    assert_eq!((list.len(), forbidden.machine.states), (12, 18));
    let words: Vec<&String> = list.iter().collect();
    let spelled_words: Vec<Vec<u8>> = words.iter().map(|word| letters(word)).collect();
    let answers = doubling.answers("board/doubling.txt", &spelled_words);
    let met = words.iter().zip(answers).filter(|(_, answer)| *answer);
    let met: Vec<&str> = met.map(|(word, _)| word.as_str()).collect();
    assert_eq!(met, ["blimblim", "zugzug"]);
    println!(
        "data/board: {} questions, {} forbidden words, {} of them accepted",
        asked.len(),
        words.len(),
        met.len()
    );
}
