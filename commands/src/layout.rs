//! Where everything is in a picture.
//!
//! A column has 44 units at most and one at least, so that the columns together
//! take 1,080 where they can; a row has 54 at most and 5 at least. What has no
//! room is left out: the names of moves and events where a column is narrower
//! than 14, notes where it is narrower than 18, the name of a node where it is
//! wider than its cells, busy flags where a row is lower than 10.

use crate::captions::Captions;
use crate::palette::move_words;
use crate::recording::Recording;
use crate::svg::{width, SIZE, SMALL};

pub const MARGIN: i32 = 16;
/// The height of a line of text.
pub const LINE_HEIGHT: i32 = 18;
/// The room for the names of rows and lanes.
const LEFT: i32 = 92;
/// The room for the words at a stop.
const STOP_ROOM: i32 = 96;
const COLUMNS_WIDTH: i32 = 1080;
const ROWS_HEIGHT: i32 = 800;
const LEAST_WIDTH: i32 = 820;
const NAMED_COLUMN: i32 = 14;
const NOTED_COLUMN: i32 = 18;
/// Marks of notes, at most.
const MOST_NOTES: usize = 24;
const LEGEND_HEIGHT: i32 = 8 * LINE_HEIGHT;

/// The sizes of columns and rows.
#[derive(Clone, Copy, Debug)]
pub struct Sizes {
    pub columns: i32,
    pub rows: i32,
    /// The width of a column.
    pub column: i32,
    /// The height of a row: cells, flags and the gap to the next.
    pub row: i32,
}

impl Sizes {
    /// For so many moves and threads.
    pub fn new(columns: i32, rows: i32) -> Sizes {
        Sizes {
            columns,
            rows,
            column: (COLUMNS_WIDTH / columns.max(1)).clamp(1, 44),
            row: (ROWS_HEIGHT / rows.max(1)).clamp(5, 54),
        }
    }

    /// The height of the bar that shows a flag.
    pub fn flag(self) -> i32 {
        (self.row / 10).clamp(1, 4)
    }

    /// The room between a cell and its flags.
    fn gap(self) -> i32 {
        match self.row {
            36.. => 2,
            14.. => 1,
            _ => 0,
        }
    }

    pub fn shows_busy(self) -> bool {
        self.row >= 10
    }

    /// The height of a cell.
    pub fn cell(self) -> i32 {
        let flags = if self.shows_busy() { 2 } else { 1 };
        let between_rows = self.row / 5;
        self.row - flags * (self.flag() + self.gap()) - between_rows
    }

    pub fn busy_top(self) -> i32 {
        self.cell() + self.gap()
    }

    pub fn forbidden_top(self) -> i32 {
        match self.shows_busy() {
            true => self.busy_top() + self.flag() + self.gap(),
            false => self.cell() + self.gap(),
        }
    }

    pub fn names_moves(self) -> bool {
        self.column >= NAMED_COLUMN
    }

    /// Whether a name fits into a cell's height, below the mark.
    pub fn names_nodes(self) -> bool {
        self.cell() >= 24
    }

    /// Whether moves are marked by dots and diamonds, and cells have edges; else
    /// moves are marked by bars.
    pub fn has_dots(self) -> bool {
        self.names_moves() && self.cell() >= 12
    }

    /// Whether so many places of notes have their marks.
    pub fn marks_notes(self, notes: usize) -> bool {
        notes == 0 || (self.column >= NOTED_COLUMN && notes <= MOST_NOTES)
    }

    /// Every how many columns, or rows, there is room for a number.
    pub fn step(size: i32, room: i32) -> usize {
        let steps = [1, 2, 5, 10, 20, 50, 100, 200, 500, 1000];
        let step = steps.into_iter().find(|step| *step * size >= room);
        step.unwrap_or(1000) as usize
    }
}

/// The whole picture, from its top to its bottom.
pub struct Layout {
    pub sizes: Sizes,
    pub captions: Captions,
    pub width: i32,
    /// Tops of the lanes.
    pub notes: i32,
    pub names: i32,
    pub numbers: i32,
    pub mutex: i32,
    pub rows: i32,
    pub events: i32,
    pub words: i32,
    pub legend: i32,
    pub height: i32,
}

impl Layout {
    pub fn new(recording: &Recording) -> Layout {
        let sizes = Sizes::new(recording.steps.len() as i32, recording.rows.len() as i32);
        let stop = recording.stop.as_ref().map_or(0, |_| STOP_ROOM);
        let width = LEFT + sizes.columns * sizes.column + stop.max(MARGIN);
        let width = width.max(LEAST_WIDTH);
        let captions = Captions::new(recording, sizes, width - 2 * MARGIN);

        let notes = MARGIN + 24 + LINE_HEIGHT * captions.subtitle.len() as i32;
        let names = notes + if captions.notes.is_empty() { 4 } else { 24 };
        let numbers = names + names_height(recording, sizes);
        let mutex = numbers + LINE_HEIGHT;
        let rows = mutex + 22;
        let events = rows + (sizes.rows * sizes.row).max(32) + 2;
        let words = events + events_height(recording, sizes) + 14;
        let legend = words + LINE_HEIGHT * captions.lines_below() + 8;
        let height = legend + LEGEND_HEIGHT + LINE_HEIGHT * captions.left_out.len() as i32;
        Layout {
            sizes,
            captions,
            width,
            notes,
            names,
            numbers,
            mutex,
            rows,
            events,
            words,
            legend,
            height,
        }
    }

    /// The left of a column.
    pub fn x(&self, column: usize) -> i32 {
        LEFT + column as i32 * self.sizes.column
    }

    /// The middle of a column.
    pub fn middle(&self, column: usize) -> i32 {
        self.x(column) + self.sizes.column / 2
    }

    /// Where the lines between columns end, below the events.
    pub fn lanes_end(&self) -> i32 {
        self.words - 10
    }

    /// Right of the last column.
    pub fn end(&self) -> i32 {
        self.x(self.sizes.columns as usize)
    }

    /// The top of a row.
    pub fn y(&self, row: usize) -> i32 {
        self.rows + row as i32 * self.sizes.row
    }

    /// Where the names of rows and lanes end.
    pub fn label(&self) -> i32 {
        LEFT - 10
    }
}

/// The height of the lane of the moves' names.
fn names_height(recording: &Recording, sizes: Sizes) -> i32 {
    let names = recording.steps.iter().map(|step| move_words(step.mov));
    match sizes.names_moves() {
        true => names.map(|name| width(&name, SMALL)).max().unwrap_or(0) + 6,
        false => 0,
    }
}

/// The height of the lane of events.
fn events_height(recording: &Recording, sizes: Sizes) -> i32 {
    let names = recording.events().map(|(_, step, event)| {
        let name = event_words(step.thread, &event.to_string());
        width(&name, SMALL)
    });
    match sizes.names_moves() {
        true => names.max().unwrap_or(SIZE) + 8,
        false => LINE_HEIGHT,
    }
}

/// What is written at an event.
pub fn event_words(thread: usize, name: &str) -> String {
    format!("{thread}: {name}")
}

#[cfg(test)]
mod tests {
    use super::*;

    #[test]
    fn cells_and_flags_fit_into_every_row() {
        for row in 5..=54 {
            let sizes = Sizes {
                columns: 1,
                rows: 1,
                column: 1,
                row,
            };
            assert!(sizes.cell() >= 2, "{row}");
            assert!(sizes.busy_top() >= sizes.cell());
            assert!(
                !sizes.shows_busy() || sizes.busy_top() + sizes.flag() <= sizes.forbidden_top()
            );
            assert!(sizes.forbidden_top() + sizes.flag() < row, "{row}");
        }
    }
}
