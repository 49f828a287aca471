//! Answers for the words of a list, a part of it in one call, by several threads where the list is long.
//!
//! - [`Question`]: the table and what is wanted of its answers.
//! - [`Batch`]: a part of a list with its answers, and what is to be printed of it ([`Printed`]).
//! - [`answer_all`]: all parts of a list in their order.

use crate::input::Sheet;
use crate::list::{List, Part, PART};
use crate::status::Failure;
use crate::word::{shown, Form};
use std::io::Write;
use std::sync::mpsc::{channel, Receiver, Sender};
use std::thread::{self, Scope};
use zagvirk::accepts::accept_words;
use zagvirk::recognize::LONGEST_RECOGNIZED;

/// The most threads that answer. One more reads and writes, so further ones would wait for it.
const MOST_THREADS: usize = 4;
/// So many refused words of a list are named where answers are not printed.
pub const NAMED: u64 = 10;

/// What is printed.
#[derive(Clone, Copy, PartialEq, Eq, Debug)]
pub enum Wanted {
    /// Each word with its answer.
    Answers,
    /// The words with this answer.
    Only(bool),
    /// No word.
    Counts,
}

impl Wanted {
    /// What stands ahead of a word with this answer; nothing if the word is not printed.
    fn ahead_of(self, yes: bool) -> Option<&'static [u8]> {
        match self {
            Wanted::Answers if yes => Some(b"yes\t"),
            Wanted::Answers => Some(b"no\t"),
            Wanted::Only(only) => (only == yes).then_some(b""),
            Wanted::Counts => None,
        }
    }
}

/// A table, the form of the words, and what is wanted.
#[derive(Clone, Copy)]
pub struct Question<'a> {
    pub sheet: &'a Sheet,
    pub form: Form,
    pub wanted: Wanted,
}

/// How many words had each answer.
#[derive(Clone, Copy, Default, PartialEq, Eq, Debug)]
pub struct Counts {
    pub yes: u64,
    pub no: u64,
    pub refused: u64,
}

impl Counts {
    /// The number of all words.
    pub fn words(&self) -> u64 {
        self.yes + self.no + self.refused
    }

    /// Adds those of another part.
    pub fn add(&mut self, more: Counts) {
        self.yes += more.yes;
        self.no += more.no;
        self.refused += more.refused;
    }
}

/// A word that is refused, for a message.
pub struct Refused {
    /// The line in its part, counted from 1.
    pub line: u64,
    /// The word as it is shown.
    pub word: String,
    pub why: String,
    pub refusal: u8,
}

/// What is to be printed of a part.
#[derive(Default)]
pub struct Printed {
    pub counts: Counts,
    pub text: Vec<u8>,
    /// Where answers are not printed, the first words that are refused.
    pub refused: Vec<Refused>,
}

impl Printed {
    fn clear(&mut self) {
        self.counts = Counts::default();
        self.text.clear();
        self.refused.clear();
    }

    /// Adds the answer for the word of a line; `cut` says that this is only the front of the line.
    fn add(&mut self, question: &Question, line: &[u8], cut: bool, answer: u8) {
        match answer {
            1 => {
                self.counts.yes += 1;
                self.add_line(question.wanted.ahead_of(true), line);
            }
            0 => {
                self.counts.no += 1;
                self.add_line(question.wanted.ahead_of(false), line);
            }
            refusal => {
                self.counts.refused += 1;
                self.add_refused(question, without_end(line), cut, refusal);
            }
        }
    }

    /// Adds a line behind what stands ahead of it, if it is wanted.
    fn add_line(&mut self, ahead: Option<&[u8]>, line: &[u8]) {
        if let Some(ahead) = ahead {
            self.text.extend_from_slice(ahead);
            self.text.extend_from_slice(line);
        }
    }

    /// Adds a word that is refused: the line for it, with only the beginning of a long word, or the word for a message.
    fn add_refused(&mut self, question: &Question, word: &[u8], cut: bool, refusal: u8) {
        if question.wanted == Wanted::Answers {
            let why = question.why_refused(word, cut, refusal);
            // A vector takes all bytes.
            let _ = write!(self.text, "refused {refusal}: {why}\t");
            match cut || word.len() > LONGEST_RECOGNIZED {
                true => self.text.extend_from_slice(shown(word).as_bytes()),
                false => self.text.extend_from_slice(word),
            }
            self.text.push(b'\n');
        } else if self.counts.refused <= NAMED {
            self.refused.push(Refused {
                line: self.counts.words(),
                word: shown(word),
                why: question.why_refused(word, cut, refusal),
                refusal,
            });
        }
    }
}

/// A part of a list with its answers. Its memory is used again for another part.
#[derive(Default)]
pub struct Batch {
    pub part: Part,
    /// The letters of the words one after another, and where each word ends.
    letters: Vec<u8>,
    ends: Vec<usize>,
    /// Where each line stops in the part, behind its line end.
    stops: Vec<usize>,
    answers: Vec<u8>,
    pub printed: Printed,
}

impl Batch {
    /// Answers for the words of the part.
    pub fn answer(&mut self, question: &Question) -> Result<(), Failure> {
        self.translate(question.form);
        self.answers.clear();
        self.answers.resize(self.ends.len(), 0);
        let table = question.sheet.table();
        accept_words(table, &self.letters, &self.ends, &mut self.answers)
            .map_err(|refusal| Failure::refused(&question.sheet.name, refusal))?;
        self.print(question);
        Ok(())
    }

    /// Finds the letters and the ends of the words.
    fn translate(&mut self, form: Form) {
        self.letters.clear();
        self.ends.clear();
        self.stops.clear();
        let mut cut = self.part.cut;
        let mut stop = 0;
        for line in self.part.lines().split_inclusive(|&byte| byte == b'\n') {
            match cut {
                // As many letters as show that the word is too long.
                true => self.letters.resize(LONGEST_RECOGNIZED + 1, 0),
                false => form.translate(without_end(line), &mut self.letters),
            }
            cut = false;
            stop += line.len();
            self.ends.push(self.letters.len());
            self.stops.push(stop);
        }
    }

    /// Counts the answers and writes what is wanted.
    fn print(&mut self, question: &Question) {
        self.printed.clear();
        let lines = self.part.lines();
        let mut start = 0;
        for (&answer, &stop) in self.answers.iter().zip(&self.stops) {
            let line = lines.get(start..stop).unwrap_or_default();
            let cut = self.part.cut && start == 0;
            self.printed.add(question, line, cut, answer);
            start = stop;
        }
    }
}

impl Question<'_> {
    /// Why the word is refused.
    fn why_refused(&self, word: &[u8], cut: bool, refusal: u8) -> String {
        if cut {
            return format!(
                "a line of {PART} bytes or more, at most {LONGEST_RECOGNIZED} letters are allowed"
            );
        }
        let letters = self.sheet.machine.letters;
        let fault = self.form.fault(word, letters, LONGEST_RECOGNIZED);
        match fault.filter(|fault| fault.refusal() == refusal) {
            Some(fault) => fault.to_string(),
            None => "the table does not take this word".to_string(),
        }
    }
}

/// The line without its line end.
fn without_end(line: &[u8]) -> &[u8] {
    line.strip_suffix(b"\n").unwrap_or(line)
}

/// Answers for all words of the list and hands the parts with their answers to `print`, in their order.
///
/// A list of one part, or one that somebody looks at, is answered by this thread; a longer one by as many threads as there
/// are processors, four at most. Memory: that of two parts for each thread, and of one more.
pub fn answer_all(
    question: &Question,
    mut list: List,
    mut print: impl FnMut(&Batch, &List) -> Result<(), Failure>,
) -> Result<(), Failure> {
    let mut first = Batch::default();
    if !list.next(&mut first.part)? {
        return Ok(());
    }
    let processors = thread::available_parallelism().map_or(1, usize::from);
    let wanted = match list.has_ended() || list.is_at_once() || processors == 1 {
        true => 0,
        false => processors.min(MOST_THREADS),
    };
    thread::scope(|scope| {
        let start = |_| Worker::start(scope, *question);
        let workers: Vec<Worker> = (0..wanted).map_while(start).collect();
        match workers.is_empty() {
            true => answer_here(question, first, &mut list, &mut print),
            false => answer_there(&workers, first, &mut list, &mut print),
        }
    })
}

/// Answers by this thread.
fn answer_here(
    question: &Question,
    mut batch: Batch,
    list: &mut List,
    print: &mut impl FnMut(&Batch, &List) -> Result<(), Failure>,
) -> Result<(), Failure> {
    loop {
        batch.answer(question)?;
        print(&batch, list)?;
        if !list.next(&mut batch.part)? {
            return Ok(());
        }
    }
}

/// Has the workers answer, each in its turn. Each has a part to go on with while the answers for one are printed.
fn answer_there(
    workers: &[Worker],
    first: Batch,
    list: &mut List,
    print: &mut impl FnMut(&Batch, &List) -> Result<(), Failure>,
) -> Result<(), Failure> {
    let gone = || Failure::Cannot("a thread that answers has ended".to_string());
    let in_turn = |number: usize| workers.get(number % workers.len().max(1)).ok_or_else(gone);
    let mut next = Ok(Some(first));
    let mut free: Vec<Batch> = Vec::new();
    let (mut sent, mut printed) = (0, 0);
    loop {
        while sent - printed < 2 * workers.len() {
            // An error of the list waits until the answers for what is ahead of it are printed.
            let Ok(Some(batch)) = next else {
                break;
            };
            in_turn(sent)?.parts.send(batch).map_err(|_| gone())?;
            sent += 1;
            let mut batch = free.pop().unwrap_or_default();
            next = list.next(&mut batch.part).map(|more| more.then_some(batch));
        }
        if printed == sent {
            return next.map(|_| ());
        }
        let batch = in_turn(printed)?.answered.recv().map_err(|_| gone())??;
        printed += 1;
        print(&batch, list)?;
        free.push(batch);
    }
}

/// A thread that answers: where parts go in, and where they come out with their answers.
struct Worker {
    parts: Sender<Batch>,
    answered: Receiver<Result<Batch, Failure>>,
}

impl Worker {
    /// Starts the thread, which ends when no more parts can come; none if the system has no thread left.
    fn start<'scope, 'env>(
        scope: &'scope Scope<'scope, 'env>,
        question: Question<'env>,
    ) -> Option<Worker> {
        let (parts, parts_in) = channel::<Batch>();
        let (answers_out, answered) = channel();
        let work = move || {
            for mut batch in parts_in {
                let result = batch.answer(&question).map(|()| batch);
                if answers_out.send(result).is_err() {
                    return;
                }
            }
        };
        let started = thread::Builder::new().spawn_scoped(scope, work);
        started.ok().map(|_| Worker { parts, answered })
    }
}
