//! Machines for the common-word search whose shortest word is long, and how many letters it has.

use reference::families::length_modulo;
use reference::Machine;

/// The least common multiple.
pub fn common_multiple(p: usize, q: usize) -> usize {
    let multiples = (1..=q).map(|times| times * p);
    let common = multiples.into_iter().find(|multiple| multiple % q == 0);
    common.expect("p x q is a multiple of both")
}

/// The plain machine that accepts every word.
pub fn every_word(letters: usize) -> Machine {
    length_modulo(letters, 1, 0)
}

/// The plain machine of the words that begin with the letters of `front`.
pub fn begins_with(letters: usize, front: &[u8]) -> Machine {
    let mut marks = vec![0; front.len() + 1];
    marks[0] |= 1;
    marks[front.len()] |= 2;
    let mut transitions: Vec<_> = (1..=letters)
        .map(|letter| (front.len(), letter, front.len()))
        .collect();
    let path = front.iter().enumerate();
    transitions.extend(path.map(|(state, &letter)| (state, usize::from(letter), state + 1)));
    Machine::new(letters, &marks, &transitions)
}

/// One copy over one letter: storing goes round a cycle of p states, matching round one of q, and each leaves its cycle
/// one letter before it is at the begin again. So the copied string has one letter less than a multiple of p and of q,
/// and the shortest word has 2 x (common multiple - 1) letters. The machine has 1 + p + q states.
pub fn cycles(p: usize, q: usize) -> (Machine, usize) {
    let (stored, matched) = (1, 1 + p);
    let mut marks = vec![5];
    marks.extend(vec![0; p]);
    marks.extend(vec![8; q]);
    marks[matched + q - 1] |= 2;
    let mut transitions = vec![(0, 0, stored), (stored + p - 1, 0, matched)];
    transitions.extend((0..p).map(|i| (stored + i, 1, stored + (i + 1) % p)));
    transitions.extend((0..q).map(|i| (matched + i, 1, matched + (i + 1) % q)));
    let machine = Machine::new(1, &marks, &transitions);
    (machine, 2 * (common_multiple(p, q) - 1))
}

/// `copies` copies in a row, each round a storing cycle of p states and a matching cycle of q states as in [`cycles`].
/// All copies share the cycles. A copied string begins and ends with a letter that only its copy has, so that no copy is
/// left out; the shortest word has 2 x copies x (common multiple + 1) letters.
///
/// The storing cycle has p states of its own, or, if `through`, every second one of it is a matching state, which may be
/// one of the matching cycle: then there is room for larger cycles. p is even then.
pub fn chain(copies: usize, p: usize, q: usize, through: bool) -> (Machine, usize) {
    assert!(!through || p.is_multiple_of(2));
    let plain = if through { p / 2 } else { p };
    // Buffering states, plain states, then matching states: one for each copy, where its string is stored and where it
    // ends, and those of the storing cycle.
    let matching = q.max(copies + p - plain);
    let (own, matched) = (copies, copies + plain);
    let mut marks = vec![4; copies];
    marks.extend(vec![0; plain]);
    marks.extend(vec![8; matching]);
    marks[0] |= 1;
    marks[matched + copies - 1] |= 2;
    // The storing cycle is entered at its first state and left from its last, a plain one.
    let storing: Vec<usize> = match through {
        false => (own..own + p).collect(),
        true => (0..p / 2)
            .flat_map(|i| [matched + copies + i, own + i])
            .collect(),
    };
    let emptying: Vec<usize> = (0..q).map(|i| matched + matching - q + i).collect();
    let mut transitions = Vec::new();
    for cycle in [&storing, &emptying] {
        let next = cycle.iter().cycle().skip(1);
        transitions.extend(cycle.iter().zip(next).map(|(&from, &to)| (from, 1, to)));
    }
    for copy in 0..copies {
        let (begin, end) = (2 + 2 * copy, 3 + 2 * copy);
        let middle = matched + copy;
        transitions.extend([(copy, begin, storing[0]), (storing[p - 1], end, middle)]);
        transitions.extend([(middle, begin, emptying[0]), (emptying[q - 1], end, middle)]);
        if copy + 1 < copies {
            transitions.push((middle, 0, copy + 1));
        }
    }
    let machine = Machine::new(1 + 2 * copies, &marks, &transitions);
    (machine, 2 * copies * (common_multiple(p, q) + 1))
}

/// Copies in a row, each of a string of `letters` letters and no other. The machine has (1 + letters) states for each
/// copy.
pub fn short_copies(copies: usize, letters: usize) -> (Machine, usize) {
    let (mut marks, mut transitions) = (Vec::new(), Vec::new());
    for copy in 0..copies {
        // A buffering state, then the states after each letter; the last one matches.
        let begin = marks.len();
        marks.push(4);
        marks.extend(vec![0; letters - 1]);
        marks.push(8);
        let middle = begin + letters;
        for i in 0..letters {
            transitions.push((begin + i, 1 + (copy + i) % 3, begin + i + 1));
        }
        transitions.extend((1..=3).map(|letter| (middle, letter, middle)));
        if copy + 1 < copies {
            transitions.push((middle, 0, middle + 1));
        }
    }
    let last = marks.len() - 1;
    marks[0] |= 1;
    marks[last] |= 2;
    (Machine::new(3, &marks, &transitions), 2 * copies * letters)
}
