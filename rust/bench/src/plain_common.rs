//! A plain search for a shortest common word in Rust, written for speed: the same answers and refusals as the proved
//! call, with both runs.
//!
//! The search goes through the configurations of the product by the number of letters read. In a copy the storing half
//! and the matching half read the same letters, so they are followed side by side: a pair (s, t) says that storing is in s
//! and matching is in t, and with it goes the set of states where storing may end and matching began, one bit each. A
//! copy ends where s itself is in the set. States and pairs from which no final state can be reached, letters left aside,
//! are not followed. What is reached is kept in a log, level by level, and the runs are found backwards along it.

use crate::plain::keeps_rules;
use zagvirk::common::needed;
use zagvirk::{Machine, BACK_TO_NORMAL, BEGIN_BUFFERING, BEGIN_EMPTYING};
use zagvirk::{BUFFERING, FINAL, INITIAL, MATCHING};

/// The states in a set.
struct Members(u64);

impl Iterator for Members {
    type Item = usize;

    fn next(&mut self) -> Option<usize> {
        if self.0 == 0 {
            return None;
        }
        let lowest = self.0.trailing_zeros() as usize;
        self.0 &= self.0 - 1;
        Some(lowest)
    }
}

fn has(set: u64, state: usize) -> bool {
    set >> state & 1 == 1
}

/// A transition of the product, with the numbers of the two transitions it is made of.
#[derive(Clone, Copy)]
struct Joined {
    letter: u8,
    to: u8,
    first: u16,
    second: u16,
}

/// The product. Transitions stand by from-state, letter, to-state.
struct Product {
    states: usize,
    letters: usize,
    transitions: Vec<Joined>,
    /// The transitions from state q are `starts[q]..starts[q + 1]`.
    starts: [u16; 65],
    initial: u64,
    ends: u64,
    buffering: u64,
    matching: u64,
}

impl Product {
    /// The product, or the number of the refusal.
    fn new(
        (first, first_list): (&Machine, &[u16]),
        (second, second_list): (&Machine, &[u16]),
    ) -> Result<Product, u8> {
        if !keeps_rules(first, first_list) || !keeps_rules(second, second_list) {
            return Err(16);
        }
        let first_list = &first_list[..3 * first.transitions];
        let second_list = &second_list[..3 * second.transitions];
        let letter = |triple: &[u16]| usize::from(triple[1]);
        let mut counts = [0u32; 251];
        for triple in second_list.chunks_exact(3) {
            counts[letter(triple)] += 1;
        }
        let marked = second
            .marks
            .iter()
            .any(|mark| mark & (BUFFERING | MATCHING) != 0);
        if marked || counts[0] > 0 {
            return Err(10);
        }
        if first.letters != second.letters {
            return Err(11);
        }
        let states = first.states * second.states;
        if states > 64 {
            return Err(12);
        }
        // Letter 0 moves the first alone, from each state of the second.
        counts[0] = second.states as u32;
        let count: u32 = first_list
            .chunks_exact(3)
            .map(|triple| counts[letter(triple)])
            .sum();
        if count > 4000 {
            return Err(13);
        }
        let mut product = Product {
            states,
            letters: first.letters,
            transitions: Vec::with_capacity(count as usize),
            starts: [0; 65],
            initial: 0,
            ends: 0,
            buffering: 0,
            matching: 0,
        };
        product.mark(first, second);
        product.join(first, first_list, second, second_list);
        Ok(product)
    }

    fn mark(&mut self, first: &Machine, second: &Machine) {
        let mut state = 0;
        for &one in &first.marks[..first.states] {
            for &two in &second.marks[..second.states] {
                let bit = |mark: u8, set: u8| u64::from(mark & set != 0) << state;
                self.initial |= bit(one & two, INITIAL);
                self.ends |= bit(one & two, FINAL);
                self.buffering |= bit(one, BUFFERING);
                self.matching |= bit(one, MATCHING);
                state += 1;
            }
        }
    }

    fn join(&mut self, first: &Machine, first_list: &[u16], second: &Machine, second_list: &[u16]) {
        let width = second.states as u16;
        // Where the transitions from each state of the second begin.
        let mut second_starts = [0u16; 65];
        for triple in second_list.chunks_exact(3) {
            second_starts[usize::from(triple[0]) + 1] += 1;
        }
        for state in 0..second.states {
            second_starts[state + 1] += second_starts[state];
        }
        let mut begin = 0;
        for p in 0..first.states {
            let mut end = begin;
            while end < first.transitions && usize::from(first_list[3 * end]) == p {
                end += 1;
            }
            for r in 0..second.states {
                let others = usize::from(second_starts[r])..usize::from(second_starts[r + 1]);
                let mut next = others.start;
                for number in begin..end {
                    let (letter, to) = (first_list[3 * number + 1], first_list[3 * number + 2]);
                    if letter == 0 {
                        self.transitions.push(Joined {
                            letter: 0,
                            to: (to * width + r as u16) as u8,
                            first: number as u16,
                            second: 0,
                        });
                        continue;
                    }
                    while next < others.end && second_list[3 * next + 1] < letter {
                        next += 1;
                    }
                    let mut other = next;
                    while other < others.end && second_list[3 * other + 1] == letter {
                        self.transitions.push(Joined {
                            letter: letter as u8,
                            to: (to * width + second_list[3 * other + 2]) as u8,
                            first: number as u16,
                            second: other as u16,
                        });
                        other += 1;
                    }
                }
                let state = p * second.states + r;
                self.starts[state + 1] = self.transitions.len() as u16;
            }
            begin = end;
        }
    }

    fn from(&self, state: usize) -> &[Joined] {
        &self.transitions[usize::from(self.starts[state])..usize::from(self.starts[state + 1])]
    }

    /// The number of the transition.
    fn number(&self, from: usize, letter: u8, to: usize) -> u16 {
        let order = |joined: &Joined| (joined.letter, joined.to);
        let place = self
            .from(from)
            .binary_search_by_key(&(letter, to as u8), order);
        self.starts[from] + place.expect("a transition that was followed") as u16
    }

    /// The states that a move may lead to from a state without being one between two matching states.
    fn not_matched(&self, from: usize) -> u64 {
        match has(self.matching, from) {
            true => !self.matching,
            false => !0,
        }
    }
}

/// How a state was reached in normal mode.
#[derive(Clone, Copy)]
enum Before {
    Start,
    /// By the transition with this number, from this state.
    Move(u16, u8),
    /// By a copy whose matching half began in this state.
    Copy(u8),
}

/// Pairs to look at: for each a set of states where storing may end.
struct Wave {
    /// The rows s that have pairs, and for each row the states t.
    rows: u64,
    columns: Vec<u64>,
    sets: Vec<u64>,
}

impl Wave {
    fn new(states: usize) -> Wave {
        Wave {
            rows: 0,
            columns: vec![0; states],
            sets: vec![0; states * states],
        }
    }

    fn add(&mut self, states: usize, s: usize, t: usize, set: u64) {
        self.sets[s * states + t] |= set;
        self.columns[s] |= 1 << t;
        self.rows |= 1 << s;
    }
}

/// A pair that was looked at, with what was new in its set.
#[derive(Clone, Copy)]
struct Entry {
    s: u8,
    t: u8,
    set: u64,
}

struct Search<'a> {
    product: &'a Product,
    /// For each state the states that a move of the mode leads to, by any letter.
    storing: [u64; 64],
    emptying: [u64; 64],
    /// For each state the matching states where storing from it may end.
    stored: [u64; 64],
    /// `moves[letter * states + t]` is the set of states that matching leads to.
    moves: Vec<u64>,
    /// For each letter the states t with a set in `moves`.
    moving: Vec<u64>,
    before: [Before; 64],
    log: Vec<Entry>,
    /// Where the entries of each number of letters begin.
    levels: Vec<u32>,
}

impl<'a> Search<'a> {
    /// A search, or nothing if no final state can be reached, letters left aside.
    fn new(product: &'a Product) -> Option<Search<'a>> {
        let states = product.states;
        let (buffering, matching) = (product.buffering, product.matching);
        let mut any = [0u64; 64];
        for (state, any) in any.iter_mut().enumerate().take(states) {
            for joined in product.from(state) {
                *any |= 1 << joined.to;
            }
        }
        let (mut storing, mut emptying) = ([0; 64], [0; 64]);
        let mut enters = 0;
        for state in 0..states {
            storing[state] = any[state] & product.not_matched(state) & !buffering;
            enters |= storing[state];
            if has(matching, state) {
                emptying[state] = any[state] & matching;
            }
        }
        // The states from which a final one can be reached, in each mode.
        let (mut normal_leads, mut storing_leads, mut emptying_leads) = (product.ends, 0u64, 0u64);
        loop {
            let before = (normal_leads, storing_leads, emptying_leads);
            for state in (0..states).rev() {
                let bit = 1u64 << state;
                if has(matching, state) {
                    if (bit & normal_leads) | (emptying[state] & emptying_leads) != 0 {
                        emptying_leads |= bit;
                    }
                    if emptying_leads & bit != 0 {
                        storing_leads |= bit;
                    }
                }
                if storing[state] & storing_leads != 0 {
                    storing_leads |= bit;
                }
                let leads = match has(buffering, state) {
                    true => storing_leads & bit,
                    false => any[state] & product.not_matched(state) & normal_leads,
                };
                if leads != 0 {
                    normal_leads |= bit;
                }
            }
            if before == (normal_leads, storing_leads, emptying_leads) {
                break;
            }
        }
        if product.initial & normal_leads == 0 {
            return None;
        }
        let ends = enters & emptying_leads;
        let mut stored: [u64; 64] = std::array::from_fn(|state| ends & 1 << state);
        let mut changed = ends != 0;
        while changed {
            changed = false;
            for state in (0..states).rev() {
                let set = Members(storing[state]).fold(stored[state], |set, to| set | stored[to]);
                changed |= set != stored[state];
                stored[state] = set;
            }
        }
        let mut moves = vec![0u64; (product.letters + 1) * states];
        let mut moving = vec![0u64; product.letters + 1];
        for from in Members(matching & emptying_leads) {
            for joined in product.from(from) {
                let letter = usize::from(joined.letter);
                if has(matching & emptying_leads, usize::from(joined.to)) {
                    moves[letter * states + from] |= 1 << joined.to;
                    moving[letter] |= 1 << from;
                }
            }
        }
        Some(Search {
            product,
            storing,
            emptying,
            stored,
            moves,
            moving,
            before: [Before::Start; 64],
            log: Vec::new(),
            levels: Vec::new(),
        })
    }

    /// The final state that is reached with the fewest letters, and their number.
    fn search(&mut self) -> Option<(usize, usize)> {
        let product = self.product;
        let states = product.states;
        let mut reached = product.initial;
        let (mut fresh, mut after_letter) = (reached, 0);
        // Pairs of this number of letters, of one more and of two more; and what was new in this one.
        let mut waves: [Wave; 3] = std::array::from_fn(|_| Wave::new(states));
        let mut new = Wave::new(states);
        let mut known = vec![0u64; states * states];
        // What the matching half reaches by a letter; empty between letters.
        let mut sets = [0u64; 64];
        for letters in 0.. {
            self.levels.push(self.log.len() as u32);
            let [wave, _, later] = &mut waves;
            // All that is reached without a letter.
            loop {
                if fresh != 0 {
                    if fresh & product.ends != 0 {
                        let end = Members(fresh & product.ends).next();
                        return end.map(|end| (end, letters));
                    }
                    let q = fresh.trailing_zeros() as usize;
                    fresh &= fresh - 1;
                    if has(product.buffering, q) {
                        for h in Members(self.stored[q]) {
                            wave.add(states, q, h, 1 << h);
                        }
                        continue;
                    }
                    let allowed = product.not_matched(q) & !reached;
                    for (number, joined) in (product.starts[q]..).zip(product.from(q)) {
                        let to = 1 << joined.to;
                        if allowed & to != 0 {
                            if joined.letter == 0 && reached & to == 0 {
                                reached |= to;
                                fresh |= to;
                                self.before[usize::from(joined.to)] = Before::Move(number, q as u8);
                            } else if joined.letter != 0 && (reached | after_letter) & to == 0 {
                                after_letter |= to;
                                self.before[usize::from(joined.to)] = Before::Move(number, q as u8);
                            }
                        }
                    }
                } else if wave.rows != 0 {
                    let s = wave.rows.trailing_zeros() as usize;
                    wave.rows &= wave.rows - 1;
                    let columns = std::mem::take(&mut wave.columns[s]);
                    for t in Members(columns) {
                        let pair = s * states + t;
                        let set = std::mem::take(&mut wave.sets[pair]) & !known[pair];
                        if set == 0 {
                            continue;
                        }
                        known[pair] |= set;
                        self.log.push(Entry {
                            s: s as u8,
                            t: t as u8,
                            set,
                        });
                        new.add(states, s, t, set);
                        if has(set, s) && !has(reached, t) {
                            reached |= 1 << t;
                            fresh |= 1 << t;
                            self.before[t] = Before::Copy(s as u8);
                        }
                        for to in Members(self.moves[t]) {
                            if set & !known[s * states + to] != 0 {
                                wave.add(states, s, to, set);
                            }
                        }
                        for joined in product.from(s) {
                            if joined.letter != 0 {
                                break;
                            }
                            let to = usize::from(joined.to);
                            let set = set & self.stored[to] & !known[to * states + t];
                            if has(self.storing[s], to) && set != 0 {
                                wave.add(states, to, t, set);
                            }
                        }
                    }
                } else {
                    break;
                }
            }
            self.read_letters(&mut new, later, &known, &mut sets);
            fresh = after_letter & !reached;
            reached |= fresh;
            after_letter = 0;
            waves.rotate_left(1);
            if fresh == 0 && waves.iter().all(|wave| wave.rows == 0) {
                return None;
            }
        }
        None
    }

    /// The pairs that both halves reach by the same letter, from those that are new. Of the new ones none is left.
    fn read_letters(&self, new: &mut Wave, later: &mut Wave, known: &[u64], sets: &mut [u64; 64]) {
        let states = self.product.states;
        for s in Members(std::mem::take(&mut new.rows)) {
            let columns = std::mem::take(&mut new.columns[s]);
            let storing = self.storing[s];
            for group in self.product.from(s).chunk_by(|a, b| a.letter == b.letter) {
                let letter = usize::from(group[0].letter);
                let movers = columns & self.moving[letter];
                if letter == 0 || movers == 0 {
                    continue;
                }
                let mut got = 0u64;
                for t in Members(movers) {
                    let to = self.moves[letter * states + t];
                    let set = new.sets[s * states + t];
                    got |= to;
                    for to in Members(to) {
                        sets[to] |= set;
                    }
                }
                for joined in group {
                    let to = usize::from(joined.to);
                    let may = self.stored[to];
                    if may == 0 || !has(storing, to) {
                        continue;
                    }
                    for t in Members(got) {
                        let set = sets[t] & may & !known[to * states + t];
                        if set != 0 {
                            later.add(states, to, t, set);
                        }
                    }
                }
                for t in Members(got) {
                    sets[t] = 0;
                }
            }
            for t in Members(columns) {
                new.sets[s * states + t] = 0;
            }
        }
    }

    /// The word and the run that led to the state, both from their ends, and the state where the run starts. Entries
    /// are numbers of joined transitions.
    fn backwards(&self, end: usize, letters: usize) -> (Vec<u8>, Vec<u16>, usize) {
        let (mut word, mut run) = (Vec::with_capacity(letters), Vec::with_capacity(letters));
        let mut stored = Vec::new();
        let (mut q, mut level) = (end, letters);
        loop {
            match self.before[q] {
                Before::Start => return (word, run, q),
                Before::Move(number, from) => {
                    run.push(number);
                    let letter = self.product.transitions[usize::from(number)].letter;
                    if letter != 0 {
                        word.push(letter);
                        level -= 1;
                    }
                    q = usize::from(from);
                }
                Before::Copy(h) => {
                    run.push(BACK_TO_NORMAL);
                    let behind = word.len();
                    q = self.copy_backwards(
                        (usize::from(h), q, level),
                        &mut word,
                        &mut run,
                        &mut stored,
                    );
                    level -= 2 * (word.len() - behind);
                    word.extend_from_within(behind..);
                    run.push(BEGIN_EMPTYING);
                    run.append(&mut stored);
                    run.push(BEGIN_BUFFERING);
                }
            }
        }
    }

    /// The pairs of a copy from its end: matching began in h and ended in t. Adds the letters and the entries of the two
    /// halves and returns the state where storing began.
    fn copy_backwards(
        &self,
        (h, mut t, mut level): (usize, usize, usize),
        word: &mut Vec<u8>,
        run: &mut Vec<u16>,
        stored: &mut Vec<u16>,
    ) -> usize {
        let product = self.product;
        let states = product.states;
        let mut s = h;
        let begin = |level: usize| self.levels[level] as usize;
        // The entry of the pair.
        let mut place = self.log.len();
        if let Some(&end) = self.levels.get(level + 1) {
            place = end as usize;
        }
        let is_pair = |entry: &Entry, s: usize, t: usize| {
            (usize::from(entry.s), usize::from(entry.t)) == (s, t) && has(entry.set, h)
        };
        place = begin(level)
            + self.log[begin(level)..place]
                .iter()
                .position(|entry| is_pair(entry, s, t))
                .expect("the pair where the copy ends");
        'pairs: while t != h || !has(product.buffering, s) {
            let earlier = match level {
                0 | 1 => begin(level)..begin(level),
                _ => begin(level - 2)..begin(level - 1),
            };
            for index in earlier {
                let Entry {
                    s: from,
                    t: other,
                    set,
                } = self.log[index];
                let (from, other) = (usize::from(from), usize::from(other));
                if has(set, h) && has(self.storing[from], s) && has(self.emptying[other], t) {
                    let by_both = |joined: &&Joined| {
                        let letter = usize::from(joined.letter);
                        letter != 0
                            && usize::from(joined.to) == s
                            && has(self.moves[letter * states + other], t)
                    };
                    if let Some(joined) = product.from(from).iter().find(by_both) {
                        word.push(joined.letter);
                        stored.push(product.number(from, joined.letter, s));
                        run.push(product.number(other, joined.letter, t));
                        (s, t, place) = (from, other, index);
                        level -= 2;
                        continue 'pairs;
                    }
                }
            }
            for index in (begin(level)..place).rev() {
                let Entry {
                    s: from,
                    t: other,
                    set,
                } = self.log[index];
                let (from, other) = (usize::from(from), usize::from(other));
                if !has(set, h) {
                    continue;
                }
                if from == s && has(self.moves[other], t) {
                    run.push(product.number(other, 0, t));
                    (t, place) = (other, index);
                    continue 'pairs;
                }
                if other == t && has(self.storing[from], s) {
                    let by_epsilon =
                        |joined: &Joined| joined.letter == 0 && usize::from(joined.to) == s;
                    if product.from(from).iter().any(by_epsilon) {
                        stored.push(product.number(from, 0, s));
                        (s, place) = (from, index);
                        continue 'pairs;
                    }
                }
            }
            unreachable!("a pair that was reached");
        }
        s
    }
}

/// Leaves out what a run does between two equal configurations. Only one position is read at each of them, so no letter
/// is left out.
fn without_repeats(list: &[u16], run: &[u16]) -> Vec<u16> {
    let mut kept = vec![run[0]];
    // For each mode and state the number of entries before it at this position, or 0.
    let mut seen = [[0usize; 64]; 3];
    let (mut mode, mut state) = (0, usize::from(run[0]));
    seen[mode][state] = 1;
    for &entry in &run[1..] {
        match entry {
            BEGIN_BUFFERING => mode = 1,
            BEGIN_EMPTYING => mode = 2,
            BACK_TO_NORMAL => mode = 0,
            _ => {
                let at = 3 * usize::from(entry);
                state = usize::from(list[at + 2]);
                if list[at + 1] != 0 {
                    seen = [[0; 64]; 3];
                }
            }
        }
        kept.push(entry);
        match seen[mode][state] {
            0 => seen[mode][state] = kept.len(),
            before => {
                kept.truncate(before);
                for place in seen.iter_mut().flatten() {
                    if *place > before {
                        *place = 0;
                    }
                }
            }
        }
    }
    kept
}

/// How many elements of each slice were written.
#[derive(Clone, Copy, PartialEq, Eq, Debug)]
pub struct Lengths {
    pub letters: usize,
    pub first_entries: usize,
    pub second_entries: usize,
}

/// What the proved call does; a refusal is its number and the length that the slice needs.
pub fn common_word(
    (first, first_list): (&Machine, &[u16]),
    (second, second_list): (&Machine, &[u16]),
    word: &mut [u8],
    first_run: &mut [u16],
    second_run: &mut [u16],
) -> Result<Option<Lengths>, (u8, usize)> {
    let product = Product::new((first, first_list), (second, second_list));
    let product = product.map_err(|number| (number, 0))?;
    let Some(mut search) = Search::new(&product) else {
        return Ok(None);
    };
    let Some((end, letters)) = search.search() else {
        return Ok(None);
    };
    let needed = needed(first, letters);
    if word.len() < needed.word {
        return Err((18, needed.word));
    }
    for (run, needed) in [
        (&*first_run, needed.first_run),
        (&*second_run, needed.second_run),
    ] {
        if run.len() < needed {
            return Err((17, needed));
        }
    }
    let (found, joined_run, start) = search.backwards(end, letters);
    for (letter, found) in word.iter_mut().zip(found.iter().rev()) {
        *letter = *found;
    }
    let mut entries = Vec::with_capacity(joined_run.len() + 1);
    entries.push((start / second.states) as u16);
    second_run[0] = (start % second.states) as u16;
    let mut read = 0;
    for &number in joined_run.iter().rev() {
        let Some(joined) = product.transitions.get(usize::from(number)) else {
            entries.push(number);
            continue;
        };
        entries.push(joined.first);
        if joined.letter != 0 {
            read += 1;
            second_run[read] = joined.second;
        }
    }
    if entries.len() > needed.first_run {
        entries = without_repeats(first_list, &entries);
    }
    first_run[..entries.len()].copy_from_slice(&entries);
    Ok(Some(Lengths {
        letters,
        first_entries: entries.len(),
        second_entries: letters + 1,
    }))
}

#[cfg(test)]
mod tests {
    use super::{common_word, without_repeats, Lengths};
    use compare::calls::{self, Slices};
    use compare::copy_chains::{chain, cycles, every_word, short_copies};
    use compare::dense::{dense, dense_plain, doubled, Kind};
    use compare::pairs::{random_chain, random_copying, random_second};
    use compare::{break_a_rule, filled, filled_bytes, random_machine, record_of, Rng};
    use reference::{Machine, Record};
    use zagvirk::Table;

    /// Compares both calls with slices of these lengths: the refusal and the length needed, or the number of letters;
    /// the runs of the plain call accept its word, and the rest of its slices is as it was. Returns the answer.
    fn same(
        first: &(Record, Vec<u16>),
        second: &(Record, Vec<u16>),
        lengths: [usize; 3],
    ) -> Result<Option<Lengths>, (u8, usize)> {
        let (one, two) = (record_of(&first.0), record_of(&second.0));
        let lent = ((&one, &first.1[..]), (&two, &second.1[..]));
        let [letters, first_entries, second_entries] = lengths;
        let new = || {
            (
                filled_bytes(letters),
                filled(first_entries),
                filled(second_entries),
            )
        };
        let (mut word, mut first_run, mut second_run) = new();
        let slices = Slices {
            word: &mut word,
            first_run: &mut first_run,
            second_run: &mut second_run,
        };
        let proved = calls::common_word(
            Table::new(&one, &first.1),
            Table::new(&two, &second.1),
            slices,
        );
        let proved = proved.map_err(|refusal| (refusal.number(), refusal.needed()));
        let (mut word, mut first_run, mut second_run) = new();
        let plain = common_word(lent.0, lent.1, &mut word, &mut first_run, &mut second_run);
        let input = || format!("{first:?}\n{second:?}\n{lengths:?}");
        assert_eq!(
            plain.map(|found| found.map(|found| found.letters)),
            proved.map(|found| found.map(|found| found.letters)),
            "{}",
            input()
        );
        let mut written = [0; 3];
        if let Ok(Some(found)) = plain {
            written = [found.letters, found.first_entries, found.second_entries];
            let word = &word[..found.letters];
            let first_run = &first_run[..found.first_entries];
            let second_run = &second_run[..found.second_entries];
            let checked = [
                calls::check_run(&one, &first.1, word, first_run),
                calls::check_run(&two, &second.1, word, second_run),
            ];
            assert_eq!(checked, [Ok(true); 2], "{}", input());
        }
        let before = new();
        assert!(word[written[0]..] == before.0[written[0]..]);
        assert!(first_run[written[1]..] == before.1[written[1]..]);
        assert!(second_run[written[2]..] == before.2[written[2]..]);
        plain
    }

    /// Compares both calls with just enough room. Returns the number of letters.
    fn enough(first: &Machine, second: &Machine) -> Option<usize> {
        let (one, two) = (first.record(), second.record());
        let needed = match same(&one, &two, [0; 3]) {
            Ok(found) => {
                assert!(found.is_none());
                return None;
            }
            Err((18, needed)) => needed,
            Err((17, _)) => 0,
            Err(refusal) => panic!("refused: {refusal:?}"),
        };
        let room = [needed, 3 * first.states() * (needed + 1), needed + 1];
        let found = same(&one, &two, room).expect("enough room");
        assert_eq!(found.map(|found| found.letters), Some(needed));
        Some(needed)
    }

    /// The plain search does all that the proved call does.
    #[test]
    fn same_as_the_proved_call() {
        let mut rng = Rng::new(20_240_035);
        let mut counts = [0; 102];
        for number in 0..60_000 {
            let letters = rng.below(4);
            let first = match number % 4 {
                0 => random_machine(&mut rng, 6, letters),
                1 => random_copying(&mut rng, 7, letters),
                _ => random_chain(&mut rng, letters),
            };
            let second = random_second(&mut rng, &first, 5);
            let (mut one, mut two) = (first.record(), second.record());
            match rng.below(24) {
                0 => one = break_a_rule(&mut rng, &first),
                1 => two = break_a_rule(&mut rng, &second),
                _ => {}
            }
            let lengths = [
                rng.pick(&[0, 1, 2, 60]),
                rng.pick(&[0, 20, 60, 2_000]),
                rng.pick(&[0, 1, 4, 60]),
            ];
            let answer = match same(&one, &two, lengths) {
                Ok(found) => 100 + usize::from(found.is_some()),
                Err((number, _)) => usize::from(number),
            };
            counts[answer] += 1;
            if answer >= 100 || answer == 17 || answer == 18 {
                enough(&first, &second);
            }
        }
        println!(
            "plain common-word search: {} cases, {} with a word, {} with none, refused with 16: {}, 10: {}, 11: {}, \
             12: {}, 18: {}, 17: {}",
            counts.iter().sum::<u32>(),
            counts[101],
            counts[100],
            counts[16],
            counts[10],
            counts[11],
            counts[12],
            counts[18],
            counts[17]
        );
        for number in [10, 11, 12, 16, 17, 18, 100, 101] {
            assert!(counts[number] > 100, "{number} is rare");
        }
    }

    #[test]
    fn repeats_are_left_out() {
        // Epsilon to and fro, and two empty copies, before a letter.
        let list = [0, 0, 1, 1, 0, 0, 1, 0, 2, 2, 0, 3, 3, 0, 2, 3, 1, 3];
        let empty_copy = [65_533, 3, 65_534, 65_535];
        let run = [&[0, 0, 1, 0, 2][..], &empty_copy, &[4], &empty_copy, &[5]].concat();
        let kept = [&[0, 0, 2][..], &empty_copy, &[5]].concat();
        assert_eq!(without_repeats(&list, &run), kept);
        assert_eq!(without_repeats(&list, &kept), kept);
    }

    #[test]
    fn long_words_and_many_transitions() {
        let mut pairs = 0;
        for (first, letters) in [
            cycles(31, 32),
            cycles(9, 7),
            chain(21, 22, 21, false),
            chain(16, 32, 31, true),
            chain(5, 6, 5, true),
            short_copies(21, 2),
        ] {
            assert_eq!(enough(&first, &every_word(first.letters)), Some(letters));
            pairs += 1;
        }
        for kind in [
            Kind::Any,
            Kind::NoFinal,
            Kind::NoWayOut,
            Kind::NeverMatched,
            Kind::Parity,
        ] {
            for (letters, count) in [(1, 1_500), (20, 4_000), (250, 4_000)] {
                let first = dense(kind, 64, letters, count);
                let found = enough(&first, &every_word(letters));
                assert_eq!(found.is_some(), kind == Kind::Any);
                pairs += 1;
            }
        }
        for ends in [false, true] {
            let second = dense_plain(21, 6, 1_979, ends);
            assert_eq!(enough(&doubled(6), &second).is_some(), ends);
            pairs += 1;
        }
        // 4,000 and 4,001 joined transitions: 64 x 62 + 32 x 1, and one more.
        let by_letters = |one: usize, two: usize, mark: u8| {
            let by = |letter, count| (0..count).map(move |i| (i / 8, letter, i % 8));
            let transitions: Vec<_> = by(1, one).chain(by(2, two)).collect();
            Machine::new(2, &[mark; 8], &transitions)
        };
        let second = by_letters(62, 1, 3);
        assert_eq!(enough(&by_letters(64, 32, 7), &second), Some(0));
        let many = by_letters(64, 33, 7);
        assert_eq!(same(&many.record(), &second.record(), [0; 3]), Err((13, 0)));
        pairs += 2;
        println!("plain common-word search: {pairs} pairs with long words or many transitions");
    }
}
