//! A table as a Graphviz graph, drawn as in the source: diamonds for buffering states, squares for matching states, dashed
//! arrows between matching states.
//!
//! - [`graph`]: the text of the graph, with a run drawn on it or without.
//! - [`Drawn`]: the run to draw.

use crate::explain::Walk;
use crate::sentences::{arrows, has, ranges, transition, Arrow, Spelling};
use std::collections::BTreeMap;
use zagvirk::{Machine, Refusal, Table, BUFFERING, FINAL, INITIAL, MATCHING};
use zagvirk::{BACK_TO_NORMAL, BEGIN_BUFFERING, BEGIN_EMPTYING};

/// The colour of a run.
const RUN_COLOUR: &str = "#b3261e";
/// The fill of a buffering state.
const BUFFERING_FILL: &str = "#fff2cc";
/// The fill of a matching state.
const MATCHING_FILL: &str = "#dae8fc";
/// A line of a label has about so many signs.
const LINE: usize = 24;

/// A run to draw on the graph, as far as its moves are allowed.
#[derive(Clone, Copy, Debug)]
pub struct Drawn<'a> {
    pub word: &'a [u8],
    pub run: &'a [u16],
}

/// What a run does, by the parts of the graph.
#[derive(Default)]
struct Marked {
    /// The start state.
    start: Option<usize>,
    /// For two states the numbers of the entries that go from the first to the second, each with its letter.
    taken: BTreeMap<(usize, usize), Vec<(usize, u16)>>,
    /// For a state the numbers of the entries that change the mode there, each with what it does.
    changes: BTreeMap<usize, Vec<(usize, &'static str)>>,
}

impl Marked {
    /// What the run does.
    fn of(table: Table, drawn: Drawn) -> Result<Marked, Refusal> {
        let mut marked = Marked::default();
        for moved in Walk::new(table, drawn.word, drawn.run) {
            let moved = moved?;
            let (number, from, to) = (moved.number, moved.before.state, moved.after.state);
            if number == 0 {
                marked.start = Some(to);
                continue;
            }
            let change = match moved.entry {
                BEGIN_BUFFERING => "begin storing",
                BEGIN_EMPTYING => "begin matching",
                BACK_TO_NORMAL => "back to normal",
                entry => {
                    let taken = transition(table, usize::from(entry));
                    let letter = taken.map_or(0, |(_, letter, _)| letter);
                    marked
                        .taken
                        .entry((from, to))
                        .or_default()
                        .push((number, letter));
                    continue;
                }
            };
            marked.changes.entry(to).or_default().push((number, change));
        }
        Ok(marked)
    }
}

/// The table as the text of a Graphviz graph, which `dot` draws. The same table and run give the same text.
///
/// Refuses as [`zagvirk::step`] does, if there is a run.
pub fn graph(table: Table, spelling: Spelling, drawn: Option<Drawn>) -> Result<String, Refusal> {
    let machine = table.machine;
    let marked = match drawn {
        Some(drawn) => Marked::of(table, drawn)?,
        None => Marked::default(),
    };
    let arrows = arrows(table);
    let mut lines = vec![
        "digraph table {".to_string(),
        "  rankdir=LR;".to_string(),
        "  fontname=\"Helvetica\"; fontsize=10; labelloc=b; labeljust=l;".to_string(),
        format!("  label={};", left(&legend(machine, &arrows, spelling, drawn))),
        "  node [fontname=\"Helvetica\", fontsize=12, shape=circle, style=filled, fillcolor=white];"
            .to_string(),
        "  edge [fontname=\"Helvetica\", fontsize=12];".to_string(),
    ];
    for state in 0..machine.states {
        lines.push(node(machine, state));
        if has(machine, state, INITIAL) {
            lines.extend(start(state, marked.start == Some(state)));
        }
        if let Some(changes) = marked.changes.get(&state) {
            lines.extend(note(state, changes));
        }
    }
    for arrow in &arrows {
        let taken = marked.taken.get(&(arrow.from, arrow.to));
        lines.push(edge(
            machine,
            arrow,
            spelling,
            taken.map_or(&[], Vec::as_slice),
        ));
    }
    lines.push("}\n".to_string());
    Ok(lines.join("\n"))
}

/// A state.
fn node(machine: &Machine, state: usize) -> String {
    let mut attributes = Vec::new();
    if has(machine, state, BUFFERING) {
        attributes.push(format!("label={}", quoted(&format!("{state}\nstores"))));
        attributes.push(format!("shape=diamond, fillcolor=\"{BUFFERING_FILL}\""));
    } else if has(machine, state, MATCHING) {
        attributes.push(format!("label={}", quoted(&format!("{state}\nmatches"))));
        attributes.push(format!("shape=square, fillcolor=\"{MATCHING_FILL}\""));
    } else {
        attributes.push(format!("label=\"{state}\""));
    }
    if has(machine, state, FINAL) {
        attributes.push("peripheries=2".to_string());
    }
    format!("  {state} [{}];", attributes.join(", "))
}

/// The arrow to an initial state, from a point.
fn start(state: usize, taken: bool) -> [String; 2] {
    let (point, arrow) = match taken {
        true => (
            format!(", color=\"{RUN_COLOUR}\", fillcolor=\"{RUN_COLOUR}\""),
            format!(" [label=\"(0)\", {}]", coloured()),
        ),
        false => (", fillcolor=black".to_string(), String::new()),
    };
    [
        format!("  start{state} [shape=point, label=\"\"{point}];"),
        format!("  start{state} -> {state}{arrow};"),
    ]
}

/// The colour of what a run takes.
fn coloured() -> String {
    format!("color=\"{RUN_COLOUR}\", fontcolor=\"{RUN_COLOUR}\", penwidth=1.8")
}

/// The changes of mode at a state, in a note below it: loops are drawn above.
fn note(state: usize, changes: &[(usize, &'static str)]) -> [String; 3] {
    let text: Vec<String> = changes
        .iter()
        .map(|(number, change)| format!("({number}) {change}"))
        .collect();
    let text = quoted(&text.join("\n"));
    [
        format!(
            "  mode{state} [label={text}, shape=note, fontsize=10, color=\"{RUN_COLOUR}\", fontcolor=\"{RUN_COLOUR}\"];"
        ),
        format!("  {{ rank=same; {state}; mode{state}; }}"),
        format!("  {state} -> mode{state} [arrowhead=none, style=dotted, color=\"{RUN_COLOUR}\"];"),
    ]
}

/// The transitions from one state to another: their letters, and the numbers of the entries that take them.
fn edge(machine: &Machine, arrow: &Arrow, spelling: Spelling, taken: &[(usize, u16)]) -> String {
    let (from, to) = (arrow.from, arrow.to);
    let mut text = wrapped(&letters(&arrow.letters, spelling));
    if !taken.is_empty() {
        let entries: Vec<String> = taken
            .iter()
            .map(|&(number, letter)| match arrow.letters.len() {
                1 => format!("({number})"),
                _ => format!("({number}) {}", label(letter, spelling)),
            })
            .collect();
        text = format!("{text}\n{}", wrapped(&entries));
    }
    let mut attributes = vec![format!("label={}", quoted(&text))];
    if is_dashed(machine, arrow) {
        attributes.push("style=dashed".to_string());
    }
    if !taken.is_empty() {
        attributes.push(coloured());
    }
    format!("  {from} -> {to} [{}];", attributes.join(", "))
}

/// Whether the transitions are between two matching states.
fn is_dashed(machine: &Machine, arrow: &Arrow) -> bool {
    has(machine, arrow.from, MATCHING) && has(machine, arrow.to, MATCHING)
}

/// The letters, runs of neighbours as their first and last.
fn letters(letters: &[u16], spelling: Spelling) -> Vec<String> {
    let (nothing, read) = match letters {
        [0, read @ ..] => (Some(label(0, spelling)), read),
        read => (None, read),
    };
    let parts = ranges(read, spelling)
        .into_iter()
        .map(|(first, last)| match first == last {
            true => label(first, spelling),
            false => format!("{}–{}", label(first, spelling), label(last, spelling)),
        });
    nothing.into_iter().chain(parts).collect()
}

/// A letter, or ε.
fn label(letter: u16, spelling: Spelling) -> String {
    match letter {
        0 => "ε".to_string(),
        _ => spelling.letter(letter),
    }
}

/// The parts with commas between them, in lines.
fn wrapped(parts: &[String]) -> String {
    let mut text = String::new();
    let mut line = 0;
    for (number, part) in parts.iter().enumerate() {
        let length = part.chars().count() + 2;
        if number > 0 {
            let (between, before) = match line + length > LINE {
                true => (",\n", 0),
                false => (", ", line),
            };
            text.push_str(between);
            line = before;
        }
        text.push_str(part);
        line += length;
    }
    text
}

/// What the signs mean that are in the graph, and whose run is drawn.
fn legend(
    machine: &Machine,
    arrows: &[Arrow],
    spelling: Spelling,
    drawn: Option<Drawn>,
) -> Vec<String> {
    let some = |mark| (0..machine.states).any(|state| has(machine, state, mark));
    let mut lines = Vec::new();
    let mut line = |there: bool, text: &str| {
        if there {
            lines.push(text.to_string());
        }
    };
    line(some(FINAL), "double border: final");
    line(some(BUFFERING), "diamond: letters are stored from here");
    line(some(MATCHING), "square: stored letters are matched here");
    line(
        arrows.iter().any(|arrow| is_dashed(machine, arrow)),
        "dashed: only while matching",
    );
    line(
        arrows.iter().any(|arrow| arrow.letters.contains(&0)),
        "ε: nothing is read",
    );
    if let Some(drawn) = drawn {
        let word = match drawn.word.is_empty() {
            true => "the empty word".to_string(),
            false => spelling.word(drawn.word),
        };
        lines.push(format!(
            "red: a run of {word}, its entries by their numbers"
        ));
    }
    lines
}

/// The text as a string of a graph, its lines in the middle.
fn quoted(text: &str) -> String {
    format!("\"{}\"", escaped(text).replace('\n', "\\n"))
}

/// The lines as a string of a graph, each at the left.
fn left(lines: &[String]) -> String {
    let lines: String = lines
        .iter()
        .map(|line| format!("{}\\l", escaped(line)))
        .collect();
    format!("\"{lines}\"")
}

/// The text with what would end a string or begin an escape made harmless.
fn escaped(text: &str) -> String {
    text.replace('\\', "\\\\").replace('"', "\\\"")
}

#[cfg(test)]
mod tests {
    use super::*;

    const T: [u16; 18] = [0, 0, 1, 1, 0, 2, 1, 1, 1, 1, 2, 1, 2, 1, 2, 2, 2, 2];

    /// The lines of the graph that begin so.
    fn lines(text: &str, begin: &str) -> Vec<String> {
        text.lines()
            .filter(|line| line.trim_start().starts_with(begin))
            .map(|line| line.trim_start().to_string())
            .collect()
    }

    #[test]
    fn table_t() {
        let machine = Machine::new(2, 6, &[5, 0, 10]);
        let table = Table::new(&machine, &T);
        let text = graph(table, Spelling::Signs, None).unwrap();
        assert!(text.starts_with("digraph table {\n") && text.ends_with("\n}\n"));
        assert_eq!(
            lines(&text, "0 "),
            [
                "0 [label=\"0\\nstores\", shape=diamond, fillcolor=\"#fff2cc\"];",
                "0 -> 1 [label=\"ε\"];"
            ]
        );
        assert_eq!(
            lines(&text, "start"),
            [
                "start0 [shape=point, label=\"\", fillcolor=black];",
                "start0 -> 0;"
            ]
        );
        assert_eq!(
            lines(&text, "1 "),
            [
                "1 [label=\"1\"];",
                "1 -> 1 [label=\"a, b\"];",
                "1 -> 2 [label=\"ε\"];"
            ]
        );
        assert_eq!(
            lines(&text, "2 "),
            [
                "2 [label=\"2\\nmatches\", shape=square, fillcolor=\"#dae8fc\", peripheries=2];",
                "2 -> 2 [label=\"a, b\", style=dashed];"
            ]
        );
        assert!(!text.contains("red:") && !text.contains("mode0"));
    }

    #[test]
    fn a_run_on_table_t() {
        let machine = Machine::new(2, 6, &[5, 0, 10]);
        let table = Table::new(&machine, &T);
        let drawn = Drawn {
            word: &[1, 2, 1, 2],
            run: &[0, 65_533, 0, 2, 3, 1, 65_534, 4, 5, 65_535],
        };
        let text = graph(table, Spelling::Signs, Some(drawn)).unwrap();
        let run = "color=\"#b3261e\", fontcolor=\"#b3261e\", penwidth=1.8";
        assert_eq!(
            lines(&text, "1 ->"),
            [
                format!("1 -> 1 [label=\"a, b\\n(3) a, (4) b\", {run}];"),
                format!("1 -> 2 [label=\"ε\\n(5)\", {run}];"),
            ]
        );
        assert_eq!(
            lines(&text, "start0 ->"),
            [format!("start0 -> 0 [label=\"(0)\", {run}];")]
        );
        assert!(text.contains("mode0 [label=\"(1) begin storing\""));
        assert!(text.contains("mode2 [label=\"(6) begin matching\\n(9) back to normal\""));
        assert!(text.contains("red: a run of \\\"abab\\\", its entries by their numbers\\l"));
    }

    #[test]
    fn labels() {
        let all: Vec<u16> = (0..=30).collect();
        assert_eq!(
            letters(&all, Spelling::Signs),
            ["ε", "a–z", "-", "'", "29", "30"]
        );
        assert_eq!(letters(&all, Spelling::Numbers), ["ε", "1–30"]);
        assert_eq!(quoted("a\"b\\c\nd"), "\"a\\\"b\\\\c\\nd\"");
        let many: Vec<String> = (0..20).map(|number| number.to_string()).collect();
        let text = wrapped(&many);
        assert!(text.lines().count() > 2);
        assert!(text.lines().all(|line| line.chars().count() <= LINE));
        assert_eq!(text.replace(",\n", ", "), many.join(", "));
        assert_eq!(wrapped(&[]), "");
    }
}
