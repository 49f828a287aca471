//! The machines of `data/machines` and the runs that the documents print.

use compare::Case;
use reference::{folder, published};

#[test]
fn folders() {
    let (mut folders, mut words, mut yes, mut cases) = (0, 0, 0, 0);
    for folder in folder::all() {
        let (record, list) = folder.machine.record();
        for (word, expected) in &folder.words {
            let run = published::find_run(&folder.machine, word);
            assert_eq!(run.is_some(), *expected, "{} {word:?}", folder.name);
            let mut case = Case::new(&record, &list, word);
            if let Some(run) = run {
                assert!(case.check_run(&run), "{} {word:?}", folder.name);
                for length in 0..run.len() {
                    case.check_run(&run[..length]);
                }
                yes += 1;
            }
            cases += case.finish();
            words += 1;
        }
        folders += 1;
    }
    println!(
        "data/machines: {folders} machines, {words} words, {yes} of them accepted, {cases} cases"
    );
}

/// Asserts that the proved checker accepts the run of the word and that it has the number of entries.
fn accepts(name: &str, word: &[u8], run: &[u16], entries: usize) {
    let (record, list) = folder::load(name).machine.record();
    let mut case = Case::new(&record, &list, word);
    assert_eq!(run.len(), entries);
    assert!(case.check_run(run), "{name} {word:?} {run:?}");
    for length in 0..run.len() {
        assert!(!case.check_run(&run[..length]));
    }
    case.finish();
}

#[test]
fn runs_of_document_01() {
    let doubled = [0, 65_533, 0, 2, 3, 1, 65_534, 4, 5, 65_535];
    accepts("table-t", &[1, 2, 1, 2], &doubled, 10);
    accepts("table-t", &[], &[0, 65_533, 0, 1, 65_534, 65_535], 6);
    let run = [0, 65_533, 0, 3, 1, 65_534, 5, 65_535];
    accepts("table-t", &[2, 2], &run, 8);
    accepts("marks-1-8-0-10", &[1, 2, 2], &[0, 0, 1, 2], 4);
    let (record, list) = folder::load("some-two").machine.record();
    let mut case = Case::new(&record, &list, &[2, 2]);
    assert!(case.check_run(&[0, 1, 3]));
    case.finish();
}

/// Figure 2.4 has 11 rows and Figure 2.7 has 13, one entry each.
#[test]
fn runs_of_source_000() {
    let run = [0, 65_533, 0, 2, 4, 3, 65_534, 5, 6, 6, 65_535];
    accepts("fig-2.3a-m2", &[1, 2, 2, 1, 2, 2], &run, 11);
    let (record, list) = folder::load("fig-2.6-m3-agta").machine.record();
    let word = [2, 7, 3, 2, 7, 3, 3, 6];
    let run = [0, 65_533, 1, 6, 9, 65_534, 14, 19, 15, 65_535, 12, 22, 25];
    accepts("fig-2.6-m3-agta", &word, &run, 13);
    // Figures 2.5 and 2.8: the rows are allowed, the run does not accept.
    let mut case = Case::new(&record, &list, &[2, 6, 3, 2, 7, 3, 3, 6]);
    assert!(!case.check_run(&[0, 65_533, 1, 5, 9, 65_534, 14]));
    case.finish();
    let (record, list) = folder::load("fig-2.3a-m2").machine.record();
    let mut case = Case::new(&record, &list, &[1, 2, 1, 2, 2]);
    assert!(!case.check_run(&[0, 65_533, 0, 2, 3, 65_534, 5, 6, 65_535]));
    case.finish();
}
