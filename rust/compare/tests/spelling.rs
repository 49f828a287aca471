//! Translation of written words: the whole result and the whole slice of each call are compared with the reference.

use compare::calls::{translate, translate_record};
use compare::{filled_bytes, Rng};
use zagvirk::spelling::TranslatedRecord;

/// Compares the translation into a slice of the length. Returns the refusal or 0.
fn translates(bytes: &[u8], length: usize) -> u8 {
    let mut expected_word = filled_bytes(length);
    let expected = match reference::spelling::translate(bytes, &mut expected_word) {
        Ok(letters) => TranslatedRecord {
            refusal: 0,
            needed: 0,
            letters,
        },
        Err(refusal) => TranslatedRecord {
            refusal: refusal.number,
            needed: refusal.needed,
            letters: 0,
        },
    };
    let mut word = filled_bytes(length);
    let found = translate_record(bytes, &mut word);
    assert!(
        found == expected && word == expected_word,
        "translate differs, slice of {length}\n{bytes:?}\nreference {expected:?} {expected_word:?}\n\
         proved {found:?} {word:?}"
    );
    let mut word = filled_bytes(length);
    let typed = translate(bytes, &mut word);
    let numbers = typed.map_err(|refusal| (refusal.number(), refusal.needed()));
    match numbers {
        Ok(letters) => assert_eq!((0, letters), (expected.refusal, expected.letters)),
        Err(numbers) => assert_eq!(numbers, (expected.refusal, expected.needed)),
    }
    assert!(word == expected_word);
    expected.refusal
}

#[test]
fn one_and_two_bytes() {
    let mut cases = 0;
    let mut word = [0];
    // The letters as document 01 says them.
    for (index, byte) in (b'a'..=b'z').enumerate() {
        assert_eq!(translate(&[byte], &mut word), Ok(1));
        assert_eq!(usize::from(word[0]), index + 1);
    }
    assert_eq!((translate(b"-", &mut word), word), (Ok(1), [27]));
    assert_eq!((translate(b"'", &mut word), word), (Ok(1), [28]));
    for one in 0..=255 {
        for length in 0..4 {
            translates(&[one], length);
            cases += 1;
        }
        for two in 0..=255 {
            translates(&[one, two], usize::from(one ^ two) % 5);
            cases += 1;
        }
    }
    println!("translate, every word of one and two bytes: {cases} cases");
}

#[test]
fn lengths() {
    let mut rng = Rng::new(20_240_007);
    let alphabet = b"abcdefghijklmnopqrstuvwxyz-'";
    let mut cases = 0;
    for length in 0..=260usize {
        let good: Vec<u8> = (0..length).map(|_| rng.pick(alphabet)).collect();
        for slice in [
            0,
            1,
            length.saturating_sub(1),
            length,
            length + 1,
            length + 9,
            300,
        ] {
            let refusal = translates(&good, slice);
            let expected = match length {
                256.. => 9,
                _ if slice < length => 18,
                _ => 0,
            };
            assert_eq!(refusal, expected);
            cases += 1;
        }
        for at in 0..length {
            let mut bad = good.clone();
            bad[at] = rng.pick(&[
                0, 1, 28, b' ', b'A', b'Z', b'`', b'{', b'&', b'(', b',', b'.', 128, 225, 255,
            ]);
            // 9 comes before 8, and 8 before 18.
            let expected = if length > 255 { 9 } else { 8 };
            assert_eq!(translates(&bad, length), expected);
            assert_eq!(translates(&bad, length - 1), expected);
            cases += 2;
        }
    }
    assert_eq!(translates(&[0; 100_000], 0), 9);
    println!("translate, words of 0 to 260 bytes: {cases} cases");
}

#[test]
fn every_slice_too_short() {
    let mut cases = 0;
    for text in [&b"wiki-wiki"[..], b"o'o", b"", &[b'z'; 255]] {
        for slice in 0..text.len() + 5 {
            let refusal = translates(text, slice);
            assert_eq!(refusal, if slice < text.len() { 18 } else { 0 });
            cases += 1;
        }
    }
    println!("translate, slices of every length: {cases} cases");
}

#[test]
fn random_words() {
    let mut rng = Rng::new(20_240_008);
    let alphabet = b"abcdefghijklmnopqrstuvwxyz-'";
    let mut counts = [0; 21];
    let cases = 200_000;
    for _ in 0..cases {
        let length = match rng.below(20) {
            0 => rng.below(300),
            _ => rng.below(20),
        };
        let mut text: Vec<u8> = (0..length).map(|_| rng.pick(alphabet)).collect();
        if length > 0 && rng.once_in(3) {
            text[rng.below(length)] = rng.bits() as u8;
        }
        let slice = match rng.below(4) {
            0 => rng.below(length + 1),
            1 => length,
            _ => length + rng.below(10),
        };
        counts[usize::from(translates(&text, slice))] += 1;
    }
    println!(
        "translate, random words: {cases} cases, {} translated, {} refused with 8, {} with 9, {} with 18",
        counts[0], counts[8], counts[9], counts[18]
    );
}

#[test]
fn c_program() {
    let printed = compare::c::program("spelling", env!("CARGO_TARGET_TMPDIR"));
    assert_eq!(printed, "words are translated right from C\n");
    print!("{printed}");
}
