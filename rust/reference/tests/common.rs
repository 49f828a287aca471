//! The number of letters of a shortest common word, by the relations of strings, agrees with trying every word.

use reference::common::{least_letters, shortest};
use reference::families::{length_modulo, small_machines};
use reference::{folder, published, Machine};

/// A pseudo-random generator (xorshift).
struct Numbers(u64);

impl Numbers {
    fn below(&mut self, bound: usize) -> usize {
        self.0 ^= self.0 << 13;
        self.0 ^= self.0 >> 7;
        self.0 ^= self.0 << 17;
        (self.0 >> 20) as usize % bound
    }

    /// A machine of 2 or more states, mostly with a copy on the way from the first state to the last.
    fn machine(&mut self, states: usize, letters: usize) -> Machine {
        let states = 2 + self.below(states - 1);
        let mut marks: Vec<u8> = (0..states).map(|_| [0, 4, 8, 8][self.below(4)]).collect();
        marks[0] = [1, 5, 5][self.below(3)];
        marks[states - 1] = [2, 10, 10][self.below(3)];
        let mut transitions = Vec::new();
        for _ in 0..states + self.below(states * (letters + 1)) {
            let letter = self.below(letters + 1);
            transitions.push((self.below(states), letter, self.below(states)));
        }
        Machine::new(letters, &marks, &transitions)
    }

    /// A plain machine that does not accept the empty word.
    fn plain(&mut self, letters: usize) -> Machine {
        let states = 2 + self.below(3);
        if self.below(2) == 0 {
            return length_modulo(letters, states, 1 + self.below(states - 1));
        }
        let mut marks = vec![0; states];
        marks[0] = 1;
        marks[states - 1] = 2;
        let mut transitions = Vec::new();
        for _ in 0..states + self.below(states * letters) {
            let letter = 1 + self.below(letters);
            transitions.push((self.below(states), letter, self.below(states)));
        }
        Machine::new(letters, &marks, &transitions)
    }
}

/// What was compared: pairs with a word of each length, with a longer word and without one.
#[derive(Default)]
struct Counts {
    by_length: Vec<u64>,
    longer: u64,
    none: u64,
}

impl Counts {
    /// Compares the number of letters with every word of at most `longest` letters.
    fn pair(&mut self, first: &Machine, second: &Machine, longest: usize) {
        let least = least_letters(first, second);
        match shortest(first, second, longest) {
            Some(word) => {
                let n = word.len();
                assert_eq!(least, Some(n), "{first:?}\n{second:?}\n{word:?}");
                if self.by_length.len() <= n {
                    self.by_length.resize(n + 1, 0);
                }
                self.by_length[n] += 1;
            }
            None => {
                let longer = least.is_none_or(|n| n > longest);
                assert!(longer, "{first:?}\n{second:?}\n{least:?}");
                match least {
                    Some(_) => self.longer += 1,
                    None => self.none += 1,
                }
            }
        }
    }

    fn report(&self, name: &str, longest: &str) {
        let found: u64 = self.by_length.iter().sum();
        println!(
            "least letters, {name}, all words to {longest} letters: {} pairs, {found} with a common word \
             (by length {:?}), {} with a longer one, {} with none",
            found + self.longer + self.none,
            self.by_length,
            self.longer,
            self.none
        );
    }
}

#[test]
fn two_states() {
    let mut counts = Counts::default();
    let plain = [length_modulo(1, 1, 0), length_modulo(1, 3, 2)];
    for subset in 0..256 {
        for machine in small_machines(2, subset..subset + 1) {
            counts.pair(&machine, &plain[subset % 2], 5);
        }
    }
    counts.report("all machines of two states over one letter", "5");
    assert!(counts.by_length.len() == 6);
}

#[test]
fn random() {
    for (letters, states, longest, pairs) in [(1, 6, 12, 6_000), (2, 5, 6, 6_000), (3, 5, 4, 3_000)]
    {
        let mut numbers = Numbers(88_172_645_463_325_252);
        let mut counts = Counts::default();
        for _ in 0..pairs {
            let first = numbers.machine(states, letters);
            let second = numbers.plain(letters);
            counts.pair(&first, &second, longest);
        }
        counts.report(
            &format!("random over {letters} letters"),
            &longest.to_string(),
        );
        assert!(counts.by_length.len() > 4 && counts.none > 100);
    }
}

#[test]
fn folders() {
    let mut counts = Counts::default();
    let all = folder::all();
    for first in &all {
        let letters = first.machine.letters;
        let mut seconds = vec![
            length_modulo(letters, 1, 0),
            length_modulo(letters, 2, 1),
            length_modulo(letters, 5, 4),
        ];
        let others = all.iter().map(|second| &second.machine);
        seconds.extend(others.filter(|second| second.is_plain()).cloned());
        for second in seconds {
            if first.machine.states() * second.states() <= 64 && second.letters == letters {
                counts.pair(&first.machine, &second, if letters < 4 { 6 } else { 3 });
            }
        }
    }
    counts.report("data/machines", "6, with more than 3 letters to 3");
}

/// Two cycles, storing and matching in turn: the only words are long. These are tried one by one as they have one letter.
#[test]
fn cycles() {
    let mut words = 0;
    for (p, q) in [(1, 1), (2, 1), (1, 3), (2, 3), (3, 4), (5, 4), (4, 6)] {
        let mut marks = vec![5];
        marks.extend(vec![0; p]);
        marks.extend(vec![8; q]);
        let (store, matched) = (1, 1 + p);
        marks[matched + q - 1] |= 2;
        let mut transitions = vec![(0, 0, store), (store + p - 1, 0, matched)];
        transitions.extend((0..p).map(|i| (store + i, 1, store + (i + 1) % p)));
        transitions.extend((0..q).map(|i| (matched + i, 1, matched + (i + 1) % q)));
        let first = Machine::new(1, &marks, &transitions);
        let second = length_modulo(1, 1, 0);
        let least = least_letters(&first, &second).expect("a common word");
        for length in 0..=least {
            let accepted = published::find_run(&first, &vec![1; length]).is_some();
            assert_eq!(accepted, length == least);
            words += 1;
        }
        // The string is one less than a multiple of p and of q.
        let multiple = (1..).find(|i| i % p == 0 && i % q == 0);
        assert_eq!(least, 2 * (multiple.expect("p x q") - 1));
    }
    println!("least letters, cycles: {words} words");
}
