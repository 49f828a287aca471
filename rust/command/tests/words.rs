//! `zagvirk words`, run as a process.

mod common;

use common::{
    ends_quietly_when_closed, fails_on_full_device, most_memory, random_sheet, repository, wait,
    zagvirk, Place, Ran, Rng, TABLE_T,
};
use std::fs;
use std::io::{Read, Write};
use std::process::{Command, Stdio};
use std::thread;
use std::time::Instant;
use zagvirk::accepts::accepts;
use zagvirk::Table;

/// What the command does with T and this list.
fn words(options: &[&str], list: impl AsRef<[u8]>) -> Ran {
    let place = Place::with_table_t();
    let arguments = ["words"].iter().chain(options).chain(&["table.txt"]);
    zagvirk(arguments).inside(&place).input(list).run()
}

#[test]
fn answers() {
    words(&[], "abab\nabba\n\nbb\n").is(1, "yes\tabab\nno\tabba\nyes\t\nyes\tbb\n", "");
    words(&[], "abab\n\n").is(0, "yes\tabab\nyes\t\n", "");
    words(&["--letters"], "1 2 1 2\n\n  1\t1 \n1 2 2 1").is(
        1,
        "yes\t1 2 1 2\nyes\t\nyes\t  1\t1 \nno\t1 2 2 1\n",
        "",
    );
    // A last line without a line end counts unless it is empty; no line is no word.
    words(&[], "abab\nab").is(1, "yes\tabab\nno\tab\n", "");
    words(&[], "").is(0, "", "");
    words(&[], "\n").is(0, "yes\t\n", "");
    words(&[], "aa").is(0, "yes\taa\n", "");
}

/// The words can stand in a file, and the sheet on standard input.
#[test]
fn files() {
    let place = Place::with_table_t();
    place.file("words.txt", "abab\nabba\n");
    let answers = "yes\tabab\nno\tabba\n";
    let run = |arguments: &[&str], input: &str| {
        let arguments = ["words"].iter().chain(arguments);
        zagvirk(arguments).inside(&place).input(input).run()
    };
    run(&["table.txt", "words.txt"], "").is(1, answers, "");
    run(&["-", "words.txt"], TABLE_T).is(1, answers, "");
    run(&["table.txt", "-"], "abab\nabba\n").is(1, answers, "");
    for arguments in [&["-"][..], &["-", "-"]] {
        run(arguments, TABLE_T).is(
            2,
            "",
            "zagvirk: words: only one of the files can be standard input\n\
             Try 'zagvirk help words' for how it is used.\n",
        );
    }
    run(&["table.txt", "none.txt"], "")
        .fails_with("zagvirk: none.txt: No such file or directory (os error 2)\n");
    run(&["table.txt", "."], "").fails_with("zagvirk: .: Is a directory (os error 21)\n");
    run(&["none.txt", "words.txt"], "")
        .fails_with("zagvirk: none.txt: No such file or directory (os error 2)\n");
}

#[test]
fn only_yes_only_no() {
    let list = "abab\nabba\n\na\nbb";
    words(&["--yes"], list).is(1, "abab\n\nbb\n", "");
    words(&["--no"], list).is(1, "abba\na\n", "");
    words(&["--yes", "--count"], list).is(1, "3\n", "");
    words(&["--no", "--count"], list).is(1, "2\n", "");
    words(&["--count"], list).is(1, "yes\t3\nno\t2\nrefused\t0\n", "");
    words(&["--count"], "aa\n").is(0, "yes\t1\nno\t0\nrefused\t0\n", "");
    words(&["--no"], "aa\n").is(0, "", "");
    words(&["--yes", "--no"], list).fails_with("zagvirk: words: give --yes or --no, not both\n");
}

/// The words that are refused, by 8 and by 9, with why.
#[test]
fn refused() {
    let long = "ab".repeat(128);
    let list = format!("abc\nab1\naB\na b\n\u{e9}a\nab\r\n\x1b\nab\n{long}\n");
    let front = &long[..40];
    let of_signs = "is none of a to z, hyphen and apostrophe";
    let answers = format!(
        "refused 8: letter 3: 'c' is letter number 3, the table has 1 to 2 (a to b)\tabc\n\
         refused 8: letter 3: '1' {of_signs}\tab1\n\
         refused 8: letter 2: 'B' {of_signs}\taB\n\
         refused 8: letter 2: ' ' {of_signs}\ta b\n\
         refused 8: letter 1: '\u{e9}' {of_signs}\t\u{e9}a\n\
         refused 8: letter 3: a carriage return {of_signs}\tab\r\n\
         refused 8: letter 1: byte 27 {of_signs}\t\x1b\n\
         no\tab\n\
         refused 9: 256 letters, at most 255 are allowed\t{front}...\n"
    );
    words(&[], &list).is(2, &answers, "");
    words(&[], "\u{e9}".as_bytes().split_at(1).0).is(
        2,
        &format!("refused 8: letter 1: byte 195 {of_signs}\t\u{fffd}\n"),
        "",
    );
    let named = |number: usize| format!("letter {number}: ");
    words(&["--letters"], "1 3\n1 0\n300\n1 x 2\n1,2\n99999999999999999999\n01 1\n").is(
        2,
        &[("1 3", 2, "3"), ("1 0", 2, "0"), ("300", 1, "300"), ("1 x 2", 2, "x"), ("1,2", 1, "1,2")]
            .iter()
            .map(|(line, place, text)| {
                let place = named(*place);
                format!("refused 8: {place}'{text}' is not the number of a letter, the table has 1 to 2 (a to b)\t{line}\n")
            })
            .chain([
                "refused 8: letter 1: '99999999999999999999' is not the number of a letter, the table has 1 to 2 (a to b)\t\
                 99999999999999999999\n".to_string(),
                "yes\t01 1\n".to_string(),
            ])
            .collect::<String>(),
        "",
    );
}

/// Where answers are not printed, words that are refused are named on standard error, ten at most.
#[test]
fn refused_are_named() {
    let of_signs = "is none of a to z, hyphen and apostrophe (refusal 8)";
    let name = "(standard input)";
    words(&["--yes"], "aa\na?\nab\n").is(
        2,
        "aa\n",
        &format!("{name}:2: word 'a?': letter 2: '?' {of_signs}\n"),
    );
    let ran = words(&["--count"], "?\n".repeat(25));
    let mut named: String = (1..=10)
        .map(|line| format!("{name}:{line}: word '?': letter 1: '?' {of_signs}\n"))
        .collect();
    named += &format!("zagvirk: {name}: 15 more words are refused\n");
    ran.is(2, "yes\t0\nno\t0\nrefused\t25\n", &named);
}

/// The answers that the calls for one word give, in the form of the list.
fn expected(table: Table, list: &[u8], form: command::word::Form) -> (i32, String) {
    let (mut status, mut text) = (0, String::new());
    let mut lines: Vec<&[u8]> = list.split(|&byte| byte == b'\n').collect();
    if lines.last().is_some_and(|line| line.is_empty()) {
        lines.pop();
    }
    for line in lines {
        let mut word = Vec::new();
        form.translate(line, &mut word);
        let answer = match accepts(table, &word) {
            Ok(true) => "yes".to_string(),
            Ok(false) => "no".to_string(),
            Err(refusal) => {
                let fault = form
                    .fault(line, table.machine.letters, 255)
                    .expect("a fault");
                assert_eq!(fault.refusal(), refusal.number(), "{word:?}");
                format!("refused {}: {fault}", refusal.number())
            }
        };
        status = status.max(match answer.as_str() {
            "yes" => 0,
            "no" => 1,
            _ => 2,
        });
        let shown = match line.len() > 255 && answer.starts_with("refused") {
            true => command::word::shown(line),
            false => String::from_utf8_lossy(line).into_owned(),
        };
        text += &format!("{answer}\t{shown}\n");
    }
    (status, text)
}

/// Random lists, some longer than a part, beside the calls for one word.
#[test]
fn random_lists() {
    use command::word::Form;
    let mut rng = Rng::new(20_260_021);
    let mut lines = 0;
    for number in 0..60 {
        let place = Place::new();
        let sheet = random_sheet(&mut rng, 5, 3);
        place.file("table.txt", &sheet);
        let mut transitions = vec![0; 12_000];
        let machine = zagvirk::sheet::read(sheet.as_bytes(), &mut transitions).expect("a sheet");
        let table = Table::new(&machine, &transitions);
        let numbers = number % 2 == 1;
        let size = match number % 10 {
            0 | 1 => 700_000,
            _ => 2_000,
        };
        let mut list = Vec::new();
        while list.len() < size {
            let length = match rng.below(400) {
                0 => rng.pick(&[254, 255, 256, 300, 5_000, 50_000]),
                _ => rng.below(10),
            };
            for _ in 0..length {
                let letter = match rng.below(300) {
                    0 => rng.below(260),
                    _ => 1 + rng.below(machine.letters.max(1)),
                };
                match numbers {
                    true => list.extend(format!("{letter} ").bytes()),
                    false => list.push(b'`' + letter.min(27) as u8),
                }
            }
            list.push(b'\n');
        }
        if number % 3 == 0 {
            list.pop();
        }
        let (form, options) = match numbers {
            true => (Form::Numbers, vec!["words", "--letters", "table.txt"]),
            false => (Form::Spelled, vec!["words", "table.txt"]),
        };
        let (status, text) = expected(table, &list, form);
        lines += text.lines().count();
        zagvirk(options)
            .inside(&place)
            .input(&list)
            .run()
            .is(status, &text, "");
    }
    println!("words, random lists: {lines} words");
}

/// The words of data/machines with their answers.
#[test]
fn machines() {
    let (mut machines, mut all) = (0, 0);
    for entry in fs::read_dir(repository().join("data/machines")).expect("data/machines") {
        let path = entry.expect("an entry").path();
        let arguments = [
            "words".into(),
            "--letters".into(),
            path.join("table.txt"),
            path.join("words.txt"),
        ];
        let ran = zagvirk(arguments).run();
        let text = fs::read(path.join("words.txt")).expect("the words");
        let mut transitions = vec![0; 12_000];
        let sheet = fs::read(path.join("table.txt")).expect("a sheet");
        let machine = zagvirk::sheet::read(&sheet, &mut transitions).expect("a good sheet");
        let table = Table::new(&machine, &transitions);
        let (status, answers) = expected(table, &text, command::word::Form::Numbers);
        ran.is(status, &answers, "");
        machines += 1;
        all += answers.lines().count();
    }
    println!("words, data/machines: {machines} machines, {all} words");
}

/// Lines as long as a part and a byte shorter or longer, alone and among others.
#[test]
fn long_lines() {
    let part = command::list::PART;
    for length in [part - 1, part, part + 1, 2 * part, 3 * part + 7] {
        for (front, back) in [("", ""), ("", "\n"), ("aa\n", "\naa\nb"), ("b\n", "\n\n")] {
            let list = format!("{front}{}{back}", "a".repeat(length));
            let ran = words(&[], &list);
            let short = format!("{}...", "a".repeat(40));
            let why = match length < part {
                true => format!("{length} letters, at most 255 are allowed"),
                false => format!("a line of {part} bytes or more, at most 255 letters are allowed"),
            };
            let mut answers = String::new();
            for line in list.lines() {
                answers += &match line {
                    "" | "aa" => format!("yes\t{line}\n"),
                    "b" => "no\tb\n".to_string(),
                    _ => format!("refused 9: {why}\t{short}\n"),
                };
            }
            ran.is(2, &answers, "");
        }
        // Blanks make a line of numbers as long.
        let list = format!("1 1{}\n1\n", " ".repeat(length - 3));
        let ran = words(&["--letters"], &list);
        assert_eq!(ran.status, if length < part { 1 } else { 2 });
        let front = if length < part {
            "yes\t1 1 "
        } else {
            "refused 9: "
        };
        assert!(ran.out.starts_with(front) && ran.out.ends_with("\nno\t1\n"));
    }
}

#[test]
fn arguments() {
    zagvirk(["words"])
        .run()
        .fails_with("zagvirk: words: TABLE is missing\n");
    zagvirk(["words", "a", "b", "c"])
        .run()
        .fails_with("zagvirk: words: 'c' is one argument too many\n");
    zagvirk(["words", "--letter", "a"])
        .run()
        .fails_with("zagvirk: words: there is no option --letter ");
    zagvirk(["words", "--count=3", "a"])
        .run()
        .fails_with("zagvirk: words: option --count takes no value\n");
}

#[test]
fn output_that_takes_nothing() {
    let place = Place::with_table_t();
    place.file("words.txt", "abab\n".repeat(100_000));
    place.file("word.txt", "abab\n");
    for list in ["words.txt", "word.txt"] {
        for option in ["--yes", "--count", "--"] {
            let call = || zagvirk(["words", option, "table.txt", list]).inside(&place);
            ends_quietly_when_closed(call());
            fails_on_full_device(call());
        }
    }
}

/// A reader that takes the first line and goes.
#[test]
fn closed_after_the_first_bytes() {
    let place = Place::with_table_t();
    place.file("words.txt", "abab\n".repeat(1_000_000));
    let mut child = zagvirk(["words", "table.txt", "words.txt"])
        .inside(&place)
        .command()
        .stdout(Stdio::piped())
        .stderr(Stdio::piped())
        .spawn()
        .expect("the command");
    let mut first = [0; 9];
    let mut stdout = child.stdout.take().expect("a pipe");
    stdout.read_exact(&mut first).expect("the first line");
    assert_eq!(&first, b"yes\tabab\n");
    drop(stdout);
    let mut err = String::new();
    let mut stderr = child.stderr.take().expect("a pipe");
    stderr.read_to_string(&mut err).expect("the messages");
    assert_eq!((wait(&mut child), err.as_str()), (141, ""));
}

/// 1 GB without a line end, then many short lines: the memory stays small.
#[test]
fn rubbish() {
    let place = Place::with_table_t();
    for (options, byte, short) in [
        (&["--count"][..], b'x', b'\n'),
        (&["--count", "--letters"], b' ', b'7'),
    ] {
        let mut child = zagvirk(["words"].iter().chain(options).chain(&["table.txt"]))
            .inside(&place)
            .command()
            .stdin(Stdio::piped())
            .stdout(Stdio::piped())
            .stderr(Stdio::piped())
            .spawn()
            .expect("the command");
        let mut stdin = child.stdin.take().expect("a pipe");
        let mut piece = vec![byte; 1 << 20];
        for _ in 0..1_024 {
            stdin.write_all(&piece).expect("input");
        }
        piece.fill(short);
        piece[0] = b'\n';
        for _ in 0..8 {
            stdin.write_all(&piece).expect("input");
        }
        let most = most_memory(&child);
        drop(stdin);
        let ran = child.wait_with_output().expect("the end");
        let out = String::from_utf8_lossy(&ran.stdout).into_owned();
        let counts = match short {
            b'\n' => format!("yes\t{}\nno\t0\nrefused\t1\n", (8 << 20) - 1),
            _ => "yes\t0\nno\t0\nrefused\t9\n".to_string(),
        };
        assert_eq!((ran.status.code(), out), (Some(2), counts));
        let err = String::from_utf8_lossy(&ran.stderr);
        let front = "(standard input):1: word '";
        assert!(
            err.starts_with(front) && err.contains("(refusal 9)"),
            "{err}"
        );
        assert!(most.is_none_or(|most| most < 32_768), "{most:?} kB");
        println!(
            "words, rubbish: {most:?} kB at most after 1 GB without a line end and 8 MB of lines"
        );
    }
}

/// On a terminal a list that takes longer than a second has a line of progress, which is gone at the end.
#[test]
fn progress() {
    if Command::new("script").arg("--version").output().is_err() {
        println!("words, progress: skipped, script is not installed");
        return;
    }
    let place = Place::with_table_t();
    let program = env!("CARGO_BIN_EXE_zagvirk");
    // Parts come with pauses between them, for two seconds.
    let feed = "i=0; while [ $i -lt 10 ]; do cat part.txt; sleep 0.2; i=$((i+1)); done";
    place.file("part.txt", "abab\n".repeat(100_000));
    let line = format!("({feed}) | {program} words --count table.txt");
    let start = Instant::now();
    let ran = Command::new("script")
        .args(["-qec", &line, "/dev/null"])
        .current_dir(place.path())
        .stdin(Stdio::null())
        .output()
        .expect("script");
    let text = String::from_utf8_lossy(&ran.stdout);
    let shown = text.matches("\rzagvirk: ").count();
    let most = start.elapsed().as_millis() / 500;
    assert!(shown >= 1 && shown as u128 <= most, "{most}: {text:?}");
    assert!(
        text.ends_with("\r\x1b[Kyes\t1000000\r\nno\t0\r\nrefused\t0\r\n"),
        "{text:?}"
    );
    println!("words, progress: shown {shown} times, {most} would be allowed");
}

/// A list that is typed is answered line by line.
#[test]
fn typed() {
    if Command::new("script").arg("--version").output().is_err() {
        println!("words, typed: skipped, script is not installed");
        return;
    }
    let place = Place::with_table_t();
    let program = env!("CARGO_BIN_EXE_zagvirk");
    let mut child = Command::new("script")
        .args(["-qec", &format!("{program} words table.txt"), "/dev/null"])
        .current_dir(place.path())
        .stdin(Stdio::piped())
        .stdout(Stdio::piped())
        .spawn()
        .expect("script");
    let mut stdin = child.stdin.take().expect("a pipe");
    let mut stdout = child.stdout.take().expect("a pipe");
    let reader = thread::spawn(move || {
        let (mut text, mut buffer) = (String::new(), [0; 256]);
        // Answers to the first line before there is a second.
        while !text.contains("yes\tabab\r\n") {
            let read = stdout.read(&mut buffer).expect("the output");
            assert!(read > 0, "{text:?}");
            text += &String::from_utf8_lossy(&buffer[..read]);
        }
        text
    });
    stdin.write_all(b"abab\n").expect("input");
    let text = reader.join().expect("an answer");
    assert!(text.ends_with("yes\tabab\r\n"), "{text:?}");
    // The end of what is typed.
    stdin.write_all(b"\x04").expect("input");
    drop(stdin);
    wait(&mut child);
}
