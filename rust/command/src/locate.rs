//! Where the first fault of a sheet is. The library decides whether a sheet is good and by which number it is refused; here
//! the sheet is read a second time, for the place of that fault and for what stands there.
//!
//! - [`fault`]: the first fault of a sheet.
//! - [`failure`]: the message for a sheet that the library refuses. A fault with another number than the library's is not
//!   the one that it found, so the message then has the number alone.

use crate::status::Failure;
use crate::word::shown;
use zagvirk::Refusal;

/// The bytes of a column.
const COLUMN: usize = 5;

/// The first fault of a sheet.
#[derive(Clone, PartialEq, Eq, Debug)]
pub struct Fault {
    /// The line, counted from 1.
    pub line: usize,
    /// The column, counted from 1, if the fault is in one.
    pub column: Option<usize>,
    /// What stands there and what was wanted.
    pub what: String,
    /// The number of the refusal.
    pub refusal: u8,
}

/// The failure for a sheet that the library refuses: with the place if the fault is found here too.
pub fn failure(name: &str, sheet: &[u8], refusal: Refusal) -> Failure {
    match fault(sheet) {
        Some(fault) if fault.refusal == refusal.number() => Failure::Refused {
            at: match fault.column {
                Some(column) => format!("{name}:{}: column {column}", fault.line),
                None => format!("{name}:{}", fault.line),
            },
            what: fault.what,
            refusal: fault.refusal,
        },
        _ => Failure::refused(name, refusal),
    }
}

/// The first fault in reading order, or none if the sheet is good.
pub fn fault(sheet: &[u8]) -> Option<Fault> {
    read(sheet).err()
}

/// Reads the sheet to its first fault.
fn read(sheet: &[u8]) -> Result<(), Fault> {
    let mut lines = Lines { sheet, line: 0 };
    let [states, letters, transitions] = lines.next(&|| {
        "line one is wanted: the numbers of states, letters and transitions".to_string()
    })?;
    let size = Size {
        states,
        letters,
        transitions,
    };
    lines.counts(&size)?;
    let [states, transitions] = values([states, transitions]);
    for state in 0..states {
        let [number, mark] = lines.next(&|| {
            let of = size.missing(states - state, transitions);
            format!("state {state} and its mark are wanted; {of}")
        })?;
        lines.state(state, number, mark)?;
    }
    let mut before = None;
    for number in 0..transitions {
        let transition = lines.next(&|| {
            let of = size.missing(0, transitions - number);
            format!("transition {number} is wanted; {of}")
        })?;
        lines.transition(&size, transition)?;
        lines.rising(before, transition)?;
        before = Some(transition);
    }
    lines.end(&size)
}

/// The number in a column.
#[derive(Clone, Copy, Default)]
struct Number {
    value: u32,
    /// Whether the column has spaces alone.
    blank: bool,
}

/// The numbers without the columns that they stood in.
fn values<const COLUMNS: usize>(numbers: [Number; COLUMNS]) -> [u32; COLUMNS] {
    numbers.map(|number| number.value)
}

/// Said behind numbers of which one is 0 because its column is blank.
fn of_blank(numbers: &[Number]) -> &'static str {
    match numbers.iter().any(|number| number.blank) {
        true => " (a blank column is 0)",
        false => "",
    }
}

/// The counts of line one.
struct Size {
    states: Number,
    letters: Number,
    transitions: Number,
}

impl Size {
    /// How many lines of a sheet that ends too early are missing.
    fn missing(&self, states: u32, transitions: u32) -> String {
        let [of_states, of_transitions] = values([self.states, self.transitions]);
        let counts = match states {
            0 => format!("{transitions} of {of_transitions} transitions are missing"),
            _ => format!(
                "{states} of {of_states} states and {transitions} of {of_transitions} transitions are missing"
            ),
        };
        format!("{counts}: add them, or correct line 1")
    }
}

/// The lines of a sheet that are not read yet.
struct Lines<'a> {
    sheet: &'a [u8],
    /// The number of the line that was read last.
    line: usize,
}

impl Lines<'_> {
    fn fault(&self, column: Option<usize>, refusal: u8, what: String) -> Fault {
        Fault {
            line: self.line,
            column,
            what,
            refusal,
        }
    }

    /// The numbers of the next line: refusals 1 and 2. `wanted` says what it should have.
    fn next<const COLUMNS: usize>(
        &mut self,
        wanted: &dyn Fn() -> String,
    ) -> Result<[Number; COLUMNS], Fault> {
        self.line += 1;
        let length = COLUMNS * COLUMN + 1;
        let Some((line, rest)) = self.sheet.split_at_checked(length) else {
            return Err(self.fault(None, 1, cut_short(self.sheet, length, &wanted())));
        };
        let mut numbers = [Number::default(); COLUMNS];
        for (index, (number, text)) in numbers.iter_mut().zip(line.chunks(COLUMN)).enumerate() {
            *number = column(text).ok_or_else(|| {
                self.fault(Some(index + 1), 2, column_fault(text, index + 1, COLUMNS))
            })?;
        }
        let end = line.last().copied().unwrap_or_default();
        if end != b'\n' {
            return Err(self.fault(None, 2, end_fault(self.sheet, length)));
        }
        self.sheet = rest;
        Ok(numbers)
    }

    /// Refusal 3.
    fn counts(&self, size: &Size) -> Result<(), Fault> {
        let ranges = [
            (size.states, "states", 1, 64),
            (size.letters, "letters", 0, 250),
            (size.transitions, "transitions", 0, 4_000),
        ];
        for (index, (number, things, least, most)) in ranges.into_iter().enumerate() {
            let (count, blank) = (number.value, of_blank(&[number]));
            if !(least..=most).contains(&count) {
                let what = format!("{count} {things}{blank}, wanted {least} to {most}");
                return Err(self.fault(Some(index + 1), 3, what));
            }
        }
        Ok(())
    }

    /// Refusal 4.
    fn state(&self, wanted: u32, number: Number, mark: Number) -> Result<(), Fault> {
        let (state, mark) = (number.value, mark.value);
        if state != wanted {
            let blank = of_blank(&[number]);
            let what =
                format!("state {state}{blank}, wanted {wanted}: states stand in turn from 0");
            return Err(self.fault(Some(1), 4, what));
        }
        let what = match mark {
            16.. => ", wanted at most 15, a sum of 1, 2, 4 and 8",
            12.. => " has both 4 (buffering) and 8 (matching), wanted one of them at most",
            _ => return Ok(()),
        };
        Err(self.fault(Some(2), 4, format!("mark {mark}{what}")))
    }

    /// Refusal 5.
    fn transition(&self, size: &Size, transition: [Number; 3]) -> Result<(), Fault> {
        let [from, letter, to] = values(transition);
        let [states, letters] = values([size.states, size.letters]);
        for (column, state) in [(1, from), (2, 0), (3, to)] {
            if column == 2 && letter > letters {
                let blank = of_blank(&[size.letters]);
                let what = format!("names letter {letter}, there are {letters}{blank}");
                return Err(self.fault(Some(2), 5, what));
            }
            if state >= states {
                let from_0 = match state == states {
                    true => ", numbered from 0",
                    false => "",
                };
                let what = format!("names state {state}, there are {states}{from_0}");
                return Err(self.fault(Some(column), 5, what));
            }
        }
        Ok(())
    }

    /// Refusal 6.
    fn rising(&self, before: Option<[Number; 3]>, transition: [Number; 3]) -> Result<(), Fault> {
        let falls = |before: &[Number; 3]| values(*before) >= values(transition);
        let Some(before) = before.filter(falls) else {
            return Ok(());
        };
        let blank = of_blank(&[before, transition].concat());
        let (before, transition) = (values(before), values(transition));
        let [from, letter, to] = transition;
        let what = match before == transition {
            true => format!("transition {from} {letter} {to} stands twice{blank}: remove one"),
            false => format!(
                "transition {from} {letter} {to} stands behind {} {} {}{blank}: sort them by from, letter, to",
                before[0], before[1], before[2]
            ),
        };
        Err(self.fault(None, 6, what))
    }

    /// Refusal 7.
    fn end(&mut self, size: &Size) -> Result<(), Fault> {
        if self.sheet.is_empty() {
            return Ok(());
        }
        let [states, transitions] = values([size.states, size.transitions]);
        let blank = of_blank(&[size.transitions]);
        self.line += 1;
        let what = format!(
            "'{}' stands behind the last line of {states} states and {transitions} transitions{blank}: remove it, or correct \
             line 1",
            shown(first_line(self.sheet))
        );
        Err(self.fault(None, 7, what))
    }
}

/// The bytes to the first line end; that alone if it is first.
fn first_line(bytes: &[u8]) -> &[u8] {
    match bytes.iter().position(|&byte| byte == b'\n') {
        Some(end) => bytes.get(..end.max(1)).unwrap_or_default(),
        None => bytes,
    }
}

/// The number of a column: digits behind spaces, no zero ahead of another digit; 0 if it has spaces alone.
fn column(text: &[u8]) -> Option<Number> {
    let spaces = text.iter().take_while(|&&byte| byte == b' ').count();
    let digits = text.get(spaces..)?;
    let blank = digits.is_empty();
    let number = match digits {
        [] => "0",
        [b'0', _, ..] => return None,
        _ => std::str::from_utf8(digits).ok()?,
    };
    // A sign ahead of the digits would be taken by `parse`.
    match number.bytes().all(|byte| byte.is_ascii_digit()) {
        true => Some(Number {
            value: number.parse().ok()?,
            blank,
        }),
        false => None,
    }
}

/// What is wrong with a column that has no number and is not blank.
fn column_fault(text: &[u8], column: usize, columns: usize) -> String {
    let of_number = |byte: &u8| *byte == b' ' || byte.is_ascii_digit();
    if let Some(end) = text.iter().position(|&byte| byte == b'\n') {
        let there = (column - 1) * COLUMN + end;
        return format!(
            "the line ends after {there} bytes, wanted {} ({columns} columns of 5)",
            columns * COLUMN
        );
    }
    let why = if text.contains(&b'\t') {
        "has a tab, wanted spaces"
    } else if text.contains(&b'\r') {
        "has a carriage return, wanted a line that ends with byte 10 alone"
    } else if !text.iter().all(of_number) || text.trim_ascii().contains(&b' ') {
        "is no number right-justified in 5 bytes"
    } else if text.last() == Some(&b' ') {
        "is not right-justified in its 5 bytes"
    } else {
        "has a zero ahead of the number, wanted spaces"
    };
    format!("'{}' {why}", shown(text))
}

/// What is wrong where the line should end.
fn end_fault(sheet: &[u8], length: usize) -> String {
    let behind = sheet.get(length - 1..).unwrap_or_default();
    let wanted = length - 1;
    if behind.first() == Some(&b'\r') {
        return format!("a carriage return stands behind the {wanted} bytes of this line, wanted byte 10 alone at its end");
    }
    let more = first_line(behind);
    format!(
        "'{}' stands behind the {wanted} bytes of this line, wanted its end, byte 10",
        shown(more)
    )
}

/// What is wrong with a last line that is too short.
fn cut_short(left: &[u8], length: usize, wanted: &str) -> String {
    let there = left.strip_suffix(b"\n").unwrap_or(left);
    if left.is_empty() {
        return format!("the sheet ends here, {wanted}");
    }
    if there.len() + 1 == length && !there.contains(&b'\n') {
        return "the last line has no end, wanted byte 10".to_string();
    }
    format!(
        "the sheet ends with '{}', wanted {} bytes and byte 10 in this line",
        shown(there),
        length - 1
    )
}
