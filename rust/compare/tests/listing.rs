//! The listing program, run as a user runs it: in a folder with table.txt, with the words on standard input. The program
//! is the one that ZAGVIRK_LISTING names, or else target/bin/listing of the repository; without it the tests only
//! compare the reference with the expected output.

use compare::columns::{blank, starts, zeros};
use compare::{random_machine, Rng};
use reference::listing::{listing, HEADER};
use reference::{folder, sheet, Machine};
use std::fs;
use std::io::{Read, Write};
use std::path::{Path, PathBuf};
use std::process::{Child, Command, Stdio};
use std::sync::atomic::{AtomicUsize, Ordering};
use std::thread;
use std::time::{Duration, Instant};

/// The program, if it is there.
fn program(test: &str) -> Option<PathBuf> {
    let path = match std::env::var_os("ZAGVIRK_LISTING") {
        Some(path) => PathBuf::from(path),
        None => Path::new(env!("CARGO_MANIFEST_DIR")).join("../../target/bin/listing"),
    };
    if !path.is_file() {
        println!("listing, {test}: skipped, {} is not there", path.display());
        return None;
    }
    Some(path.canonicalize().expect("the path of the program"))
}

/// A folder of its own for one run, removed when the run is over.
struct Place(PathBuf);

impl Place {
    fn new(table: Option<&[u8]>) -> Place {
        static RUNS: AtomicUsize = AtomicUsize::new(0);
        let number = RUNS.fetch_add(1, Ordering::Relaxed);
        let name = format!("listing-{}-{number}", std::process::id());
        let place = Place(Path::new(env!("CARGO_TARGET_TMPDIR")).join(name));
        fs::create_dir_all(&place.0).expect("a folder");
        if let Some(table) = table {
            fs::write(place.0.join("table.txt"), table).expect("table.txt");
        }
        place
    }

    /// Starts the program here.
    fn start(&self, program: &Path, input: Stdio) -> Child {
        Command::new(program)
            .current_dir(&self.0)
            .stdin(input)
            .stdout(Stdio::piped())
            .spawn()
            .unwrap_or_else(|e| panic!("{}: {e}", program.display()))
    }
}

impl Drop for Place {
    fn drop(&mut self) {
        let _ = fs::remove_dir_all(&self.0);
    }
}

/// Waits until the program ends by itself, and asserts that it does so in time and that no signal ended it, unless
/// `signal` allows that.
fn wait(mut child: Child, signal: bool) {
    let start = Instant::now();
    loop {
        if let Some(status) = child.try_wait().expect("the status") {
            assert!(signal || status.code().is_some(), "{status}");
            return;
        }
        if start.elapsed() > Duration::from_secs(60) {
            child.kill().expect("a running program");
            panic!("the program does not end");
        }
        thread::sleep(Duration::from_micros(200));
    }
}

/// What the program prints. It may end before it has read all of its input.
fn prints(program: &Path, table: Option<&[u8]>, input: &[u8]) -> Vec<u8> {
    prints_in(&Place::new(table), program, input)
}

fn prints_in(place: &Place, program: &Path, input: &[u8]) -> Vec<u8> {
    let mut child = place.start(program, Stdio::piped());
    let mut stdin = child.stdin.take().expect("a pipe");
    let mut stdout = child.stdout.take().expect("a pipe");
    let mut output = Vec::new();
    thread::scope(|scope| {
        scope.spawn(move || {
            let _ = stdin.write_all(input);
        });
        stdout.read_to_end(&mut output).expect("the output");
    });
    wait(child, false);
    output
}

/// Asserts that the output is the expected one, to the byte.
fn same(name: &str, output: &[u8], expected: &[u8]) {
    if output != expected {
        let at = output
            .iter()
            .zip(expected)
            .take_while(|(a, b)| a == b)
            .count();
        let around = |bytes: &[u8]| {
            let from = at.saturating_sub(64).min(bytes.len());
            String::from_utf8_lossy(&bytes[from..bytes.len().min(at + 64)]).into_owned()
        };
        panic!(
            "{name}: {} bytes printed, {} expected, different from byte {at} on\nprinted  {:?}\nexpected {:?}",
            output.len(),
            expected.len(),
            around(output),
            around(expected)
        );
    }
}

/// The cases of data/listing.
#[test]
fn folder_of_cases() {
    let place = Path::new(env!("CARGO_MANIFEST_DIR")).join("../../data/listing");
    let mut names: Vec<String> = fs::read_dir(&place)
        .expect("the folder data/listing")
        .map(|entry| entry.expect("an entry").file_name().into_string().unwrap())
        .collect();
    names.sort();
    let program = program("cases of data/listing");
    for name in &names {
        let read = |file: &str| fs::read(place.join(name).join(file));
        let table = read("table.txt").ok();
        let input = read("input").unwrap_or_else(|e| panic!("{name}/input: {e}"));
        let expected = read("expected").unwrap_or_else(|e| panic!("{name}/expected: {e}"));
        same(name, &listing(table.as_deref(), &input), &expected);
        if let Some(program) = &program {
            same(name, &prints(program, table.as_deref(), &input), &expected);
        }
    }
    println!("listing, cases of data/listing: {}", names.len());
}

/// The words of data/machines with their answers.
#[test]
fn machines() {
    let Some(program) = program("data/machines") else {
        return;
    };
    let (mut machines, mut words) = (0, 0);
    for folder in folder::all() {
        let read = |file: &str| fs::read(folder::place().join(&folder.name).join(file)).unwrap();
        let mut expected = HEADER.to_string();
        for (index, (_, answer)) in folder.words.iter().enumerate() {
            expected += &format!("{:5}{:5}{:5}\n", index + 1, u8::from(*answer), 0);
        }
        let output = prints(&program, Some(&read("table.txt")), &read("words.txt"));
        same(&folder.name, &output, expected.as_bytes());
        machines += 1;
        words += folder.words.len();
    }
    println!("listing, data/machines: {machines} machines, {words} words");
}

/// The machine's sheet.
fn sheet_of(machine: &Machine) -> Vec<u8> {
    let (record, list) = machine.record();
    let mut bytes = vec![0; 64_720];
    let length = sheet::write(&record, &list, &mut bytes).expect("a good machine");
    bytes.truncate(length);
    bytes
}

/// Lines of words, most of them good.
fn random_input(rng: &mut Rng, letters: usize) -> Vec<u8> {
    let mut input = Vec::new();
    for _ in 0..rng.below(40) {
        match rng.below(30) {
            0 => input.extend((0..rng.below(12)).map(|_| rng.bits() as u8)),
            1 => input.extend(vec![
                rng.pick(b" 1x\0");
                rng.pick(&[800, 801, 1274, 1275, 1276, 1280, 2000])
            ]),
            2 => input.extend(b"    1".repeat(rng.pick(&[20, 161, 254, 255, 256]))),
            _ => {
                for _ in 0..rng.below(7) {
                    let number = match rng.below(40) {
                        0 => rng.pick(&[0, 251, 256, 257, 65_536, 99_999]),
                        1 => letters + 1,
                        _ => 1 + rng.below(letters.max(1)),
                    };
                    let column = match rng.below(60) {
                        0 => format!("{number:05}"),
                        1 => format!("{number:<5}"),
                        2 => format!("{number:4}"),
                        3 => " ".repeat(5),
                        4 => " ".repeat(4),
                        _ => format!("{number:5}"),
                    };
                    input.extend(column.bytes());
                }
            }
        }
        if rng.once_in(40) {
            input.push(b'\r');
        }
        input.push(b'\n');
    }
    if rng.once_in(3) {
        input.pop();
    }
    input
}

#[test]
fn random_inputs() {
    let Some(program) = program("random inputs") else {
        return;
    };
    let mut rng = Rng::new(20_240_016);
    let runs = 600;
    let (mut refused, mut lines, mut blanks) = (0, 0, 0);
    for number in 0..runs {
        let machine = random_machine(&mut rng, 4, 3);
        let mut table = sheet_of(&machine);
        let mut input = random_input(&mut rng, machine.letters);
        if number % 2 == 0 {
            // Mostly zeros alone are left out.
            let mut left_out = match rng.once_in(8) {
                true => starts(&table),
                false => zeros(&table),
            };
            left_out.retain(|_| rng.once_in(2));
            blank(&mut table, &left_out);
            blanks += left_out.len();
        }
        if number % 3 == 0 {
            let mut left_out = starts(&input);
            left_out.retain(|_| rng.once_in(30));
            blank(&mut input, &left_out);
            blanks += left_out.len();
        }
        if number % 4 == 0 {
            let at = rng.below(table.len());
            match rng.below(5) {
                0 => table[at] = rng.pick(b" 0129\n\r"),
                1 => table.truncate(at),
                2 => table.insert(at, rng.pick(b" 0129\n")),
                3 => table.extend(vec![rng.bits() as u8; rng.pick(&[1, 16, 100_000])]),
                _ => {
                    table.remove(at);
                }
            }
        }
        if number % 5 == 0 && !input.is_empty() {
            for _ in 0..1 + rng.below(3) {
                let at = rng.below(input.len());
                input[at] = rng.pick(b" 0123456789\n\r\0\xff");
            }
        }
        let expected = listing(Some(&table), &input);
        refused += u64::from(expected.starts_with(b"SHEET"));
        lines += expected.iter().filter(|&&byte| byte == b'\n').count() - 1;
        let output = prints(&program, Some(&table), &input);
        let name = format!(
            "table\n{}\ninput {:?}\n",
            String::from_utf8_lossy(&table[..table.len().min(2000)]),
            String::from_utf8_lossy(&input)
        );
        same(&name, &output, &expected);
    }
    println!(
        "listing, random and damaged: {runs} inputs, {refused} sheets refused, {lines} lines of words, {blanks} columns \
         left out"
    );
}

fn table_t() -> Vec<u8> {
    sheet_of(&folder::load("table-t").machine)
}

#[test]
fn limits() {
    let Some(program) = program("limits") else {
        return;
    };
    // 99,998 to 100,001 words; what follows the last is not looked at.
    let table = table_t();
    let words = b"    1    2    1    2\n\n    1\n    3\n".repeat(25_001);
    let lines: Vec<&[u8]> = words.split_inclusive(|&byte| byte == b'\n').collect();
    let listed = listing(Some(&table), &words);
    assert_eq!(listed.len(), 16 * 100_000);
    for count in [99_998, 99_999, 100_000, 100_001] {
        let mut input = lines[..count].concat();
        let mut expected = listed[..16 * (count + 1).min(100_000)].to_vec();
        let output = prints(&program, Some(&table), &input);
        same("many words", &output, &expected);
        input.extend(b"    1    1");
        if count < 99_999 {
            expected.extend(format!("{:5}{:5}{:5}\n", count + 1, 1, 0).bytes());
        }
        let output = prints(&program, Some(&table), &input);
        same("many words, the last without line end", &output, &expected);
    }
    let mut cases = 8;
    let mut compare = |name: &str, table: &[u8], input: &[u8]| {
        let output = prints(&program, Some(table), input);
        same(name, &output, &listing(Some(table), input));
        cases += 1;
    };
    compare("many empty words", &table, &vec![b'\n'; 300_000]);
    // The largest sheet, one byte more, a much larger file, and a fault before its end.
    let mut transitions: Vec<(usize, usize, usize)> = (0..4000)
        .map(|number| (number / 63, number % 63, 63 - number % 64))
        .collect();
    transitions[3999] = (63, 250, 63);
    let mut largest = sheet_of(&Machine::new(250, &[3; 64], &transitions));
    assert_eq!(largest.len(), 64_720);
    let input = b"    1\n  250\n  251\n\n   62   61   60\n";
    compare("the largest sheet", &largest, input);
    compare("the largest sheet, cut", &largest[..64_719], input);
    largest.push(b'\n');
    compare("one byte more", &largest, input);
    largest.resize(5_000_000, b' ');
    compare("a larger file", &largest, input);
    largest[64_703] = b'x';
    compare(
        "a larger file with a fault in its last line",
        &largest,
        input,
    );
    compare("a file of line ends", &vec![b'\n'; 1_000_000], input);
    // Long lines.
    for (byte, length) in [
        (b'1', 5_000_000),
        (0, 5_000_000),
        (b' ', 65_536),
        (b'x', 65_535),
    ] {
        let mut input = b"    1    1\n".to_vec();
        input.extend(vec![byte; length]);
        compare("a long line without line end", &table, &input);
        input.extend(b"\n    1    1\n    1");
        compare("a long line and more", &table, &input);
    }
    // Lines of many lengths, so that they begin and end anywhere in a buffer.
    let mut rng = Rng::new(20_240_017);
    for _ in 0..6 {
        let mut input = Vec::new();
        while input.len() < 300_000 {
            let length = rng.pick(&[0, 1, 5, 10, 20, 801, 1270, 1274, 1275, 1276, 4096]);
            let column = rng.pick(&[b"    1", b"    1", b"    1", b"     "]);
            input.extend(column.repeat(length / 5));
            input.extend(vec![b' '; length % 5]);
            input.push(b'\n');
        }
        compare("lines of many lengths", &table, &input);
    }
    println!("listing, limits and large inputs: {cases} cases");
}

/// No table.txt for other reasons, no input, and a closed output.
#[test]
fn surroundings() {
    let Some(program) = program("surroundings") else {
        return;
    };
    let table = table_t();
    let output = |place: &Place, input: Stdio| {
        let mut child = place.start(&program, input);
        let mut output = Vec::new();
        let mut stdout = child.stdout.take().expect("a pipe");
        stdout.read_to_end(&mut output).expect("the output");
        wait(child, false);
        output
    };
    // No input.
    let place = Place::new(Some(&table));
    same(
        "no input",
        &output(&place, Stdio::null()),
        HEADER.as_bytes(),
    );
    // A folder in the place of table.txt.
    let place = Place::new(None);
    fs::create_dir(place.0.join("table.txt")).expect("a folder");
    same(
        "a folder",
        &output(&place, Stdio::null()),
        b"SHEET REFUSED    1\n",
    );
    // Another file beside it.
    let place = Place::new(None);
    fs::write(place.0.join("TABLE.TXT"), &table).expect("a file");
    same(
        "another name",
        &output(&place, Stdio::null()),
        b"SHEET REFUSED    1\n",
    );
    // The output is closed before anything is printed, and after the first bytes.
    for bytes in [0, 10] {
        let place = Place::new(Some(&table));
        let mut child = place.start(&program, Stdio::piped());
        let mut stdin = child.stdin.take().expect("a pipe");
        let mut stdout = child.stdout.take().expect("a pipe");
        let feeder = thread::spawn(move || {
            // Well over 99,999 words, so that the program ends also if it goes on without an output.
            for _ in 0..30 {
                if stdin.write_all(&b"    1    1\n".repeat(10_000)).is_err() {
                    return;
                }
            }
        });
        let mut first = vec![0; bytes];
        stdout.read_exact(&mut first).expect("the first bytes");
        assert_eq!(first, HEADER.as_bytes()[..bytes]);
        drop(stdout);
        wait(child, true);
        feeder.join().expect("the input");
    }
    println!("listing, surroundings: no input, no table, closed output");
}

/// The memory of the program stays small while a long line and then many lines come in.
#[test]
fn memory() {
    let Some(program) = program("memory") else {
        return;
    };
    let place = Place::new(Some(&table_t()));
    let mut child = place.start(&program, Stdio::piped());
    let mut stdin = child.stdin.take().expect("a pipe");
    let mut stdout = child.stdout.take().expect("a pipe");
    let reader = thread::spawn(move || {
        let mut output = Vec::new();
        stdout.read_to_end(&mut output).expect("the output");
        output
    });
    let piece = vec![b'7'; 1 << 20];
    for _ in 0..200 {
        stdin.write_all(&piece).expect("input");
    }
    stdin.write_all(b"\n").expect("input");
    stdin.write_all(&vec![b'\n'; 90_000]).expect("input");
    let status = fs::read_to_string(format!("/proc/{}/status", child.id())).unwrap_or_default();
    drop(stdin);
    let output = reader.join().expect("the output");
    wait(child, false);
    assert!(output.starts_with(b"  NO.  ANS  REF\n    1    2    9\n    2    1    0\n"));
    assert_eq!(output.len(), 16 * 90_002);
    let most = status.lines().find_map(|line| line.strip_prefix("VmHWM:"));
    let most = most.and_then(|text| text.trim().strip_suffix("kB")?.trim().parse::<u64>().ok());
    match most {
        Some(most) => {
            println!("listing, memory: {most} kB at most after a line of 200 MB and 90,000 words");
            assert!(most < 32_768, "{most} kB");
        }
        None => println!("listing, memory: not known here"),
    }
}
