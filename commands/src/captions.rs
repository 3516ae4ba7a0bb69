//! The texts above and below a picture.

use crate::layout::Sizes;
use crate::lines::Notes;
use crate::recording::Recording;
use crate::stop::Stop;
use crate::svg::{wrap, SIZE};

/// Lines of one note, at most.
const NOTE_LINES: usize = 3;
/// Notes that stand together, at most.
const NOTES_TOGETHER: usize = 3;
/// The room of a note's number.
pub const NUMBER_ROOM: i32 = 24;

/// Notes between two moves that have a number in the picture.
pub struct NumberedNotes {
    pub moves_before: usize,
    pub lines: Vec<String>,
}

/// Texts, broken into lines of the picture's width.
pub struct Captions {
    pub title: String,
    /// The notes before the first move.
    pub subtitle: Vec<String>,
    pub notes: Vec<NumberedNotes>,
    pub stop: Vec<String>,
    /// What had no room.
    pub left_out: Vec<String>,
}

impl Captions {
    pub fn new(recording: &Recording, sizes: Sizes, room: i32) -> Captions {
        let (first, later): (Vec<&Notes>, Vec<&Notes>) = recording
            .notes
            .iter()
            .partition(|notes| notes.moves_before == 0);
        let marked = sizes.marks_notes(later.len());
        let stop = recording.stop.as_ref().map(Stop::words);
        let left_out = left_out(sizes, !marked);
        Captions {
            title: title(recording),
            subtitle: first.iter().flat_map(|notes| lines(notes, room)).collect(),
            notes: match marked {
                true => numbered(&later, room - NUMBER_ROOM),
                false => Vec::new(),
            },
            // It is bold, which is wider.
            stop: wrap(&stop.unwrap_or_default(), SIZE, room * 7 / 8, NOTE_LINES),
            left_out: wrap(&left_out, SIZE, room, NOTE_LINES),
        }
    }

    /// The lines between the events and the legend.
    pub fn lines_below(&self) -> i32 {
        let notes: usize = self.notes.iter().map(|notes| notes.lines.len()).sum();
        (notes + self.stop.len()) as i32
    }
}

fn numbered(notes: &[&Notes], room: i32) -> Vec<NumberedNotes> {
    let numbered = notes.iter().map(|notes| NumberedNotes {
        moves_before: notes.moves_before,
        lines: lines(notes, room),
    });
    numbered.collect()
}

/// The lines of notes that stand together; three dots for those after the third.
fn lines(notes: &Notes, room: i32) -> Vec<String> {
    let texts = notes.texts.iter().take(NOTES_TOGETHER);
    let mut lines: Vec<String> = texts
        .flat_map(|text| wrap(text, SIZE, room, NOTE_LINES))
        .collect();
    if notes.texts.len() > NOTES_TOGETHER {
        lines.push("...".to_string());
    }
    lines
}

/// A number of things in words.
pub fn count(number: usize, thing: &str) -> String {
    match number {
        0 => format!("no {thing}s"),
        1 => format!("1 {thing}"),
        _ => format!("{number} {thing}s"),
    }
}

fn title(recording: &Recording) -> String {
    let stopped = match &recording.stop {
        Some(_) if recording.rows.is_empty() => return "A run that did not start".to_string(),
        Some(stop) => format!(", stopped at line {}", stop.line),
        None => String::new(),
    };
    let retries = match recording.retries() {
        0 => String::new(),
        1 => ", 1 retry".to_string(),
        number => format!(", {number} retries"),
    };
    format!(
        "A run of {}: {}, {}{retries}{stopped}",
        count(recording.rows.len(), "thread"),
        count(recording.steps.len(), "move"),
        count(recording.events().count(), "event"),
    )
}

/// What is left out, and why. The numbers follow from the sizes.
fn left_out(sizes: Sizes, notes_hidden: bool) -> String {
    let all = [
        (
            !sizes.names_moves(),
            "the names of moves and events (more than 77 moves)",
        ),
        (notes_hidden, "notes (more than 60 moves, or 24 notes)"),
        (
            !sizes.names_nodes(),
            "the names of nodes (more than 18 threads)",
        ),
        (!sizes.shows_busy(), "busy flags (more than 80 threads)"),
    ];
    let left_out: Vec<&str> = all
        .into_iter()
        .filter(|(hidden, _)| *hidden)
        .map(|(_, what)| what)
        .collect();
    match left_out.is_empty() {
        true => String::new(),
        false => format!("Left out: {}.", left_out.join("; ")),
    }
}

#[cfg(test)]
mod tests {
    use super::*;

    #[test]
    fn what_is_left_out_depends_on_moves_and_threads() {
        let words = |columns, rows| left_out(Sizes::new(columns, rows), false);
        assert_eq!(words(77, 18), "");
        assert!(words(78, 18).ends_with(": the names of moves and events (more than 77 moves)."));
        assert!(words(77, 19).ends_with(": the names of nodes (more than 18 threads)."));
        assert!(!words(77, 80).contains("busy"));
        assert!(words(77, 81).ends_with("; busy flags (more than 80 threads)."));
        let marks_notes = |columns, notes| Sizes::new(columns, 1).marks_notes(notes);
        assert!(marks_notes(60, 24) && !marks_notes(61, 24) && !marks_notes(60, 25));
        // Without notes there is none to leave out.
        assert!(marks_notes(2000, 0));
    }

    #[test]
    fn many_notes_together_are_cut() {
        let notes = |texts: usize| Notes {
            moves_before: 0,
            texts: vec!["text".to_string(); texts],
        };
        assert_eq!(lines(&notes(3), 200), ["text"; 3]);
        assert_eq!(lines(&notes(4), 200), ["text", "text", "text", "..."]);
    }
}
