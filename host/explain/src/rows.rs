//! The rows of the table, one for each line of the log, and their columns.
use std::fmt::Write as _;

use crate::{
    line::Way,
    paint::{Paint, Style},
};

enum Side {
    Left,
    Right,
}

struct Column {
    title: &'static str,
    start: usize,
    end: usize,
    side: Side,
}

const fn column(title: &'static str, start: usize, end: usize, side: Side) -> Column {
    Column { title, start, end, side }
}

const COLUMNS: [Column; 13] = [
    column("line", 0, 6, Side::Right),
    column("", 8, 10, Side::Left),
    column("kind", 12, 16, Side::Left),
    column("N(S)", 17, 22, Side::Right),
    column("N(R)", 23, 28, Side::Right),
    column("type", 30, 39, Side::Left),
    column("direction", 41, 50, Side::Left),
    column("cause", 52, 80, Side::Left),
    column("CA", 80, 85, Side::Right),
    column("OA", 86, 89, Side::Right),
    column("objects", 90, 97, Side::Right),
    column("form", 99, 107, Side::Left),
    column("", 109, 123, Side::Left),
];

/// What stands below a row begins below its kind.
pub const INDENT: &str = "            ";

#[derive(Default)]
pub struct Cell {
    style: Style,
    text: String,
}

impl Cell {
    pub fn new(style: Style, text: impl ToString) -> Cell {
        Cell { style, text: text.to_string() }
    }

    pub fn bare(text: impl ToString) -> Cell {
        Cell::new(Style::Bare, text)
    }
}

/// Where a frame stands in its log, and what the mark of its line said.
#[derive(Clone, Copy)]
pub struct Place {
    pub line: u64,
    pub way: Option<Way>,
}

/// A cell for each column.
#[derive(Default)]
pub struct Row {
    pub line: Cell,
    pub way: Cell,
    pub kind: Cell,
    pub send: Cell,
    pub receive: Cell,
    pub what: Cell,
    pub direction: Cell,
    pub cause: Cell,
    pub address: Cell,
    pub originator: Cell,
    pub objects: Cell,
    pub form: Cell,
    pub marks: Cell,
}

impl Row {
    pub fn at(place: Place, style: Style, kind: impl ToString) -> Row {
        Row {
            line: Cell::new(Style::Title, place.line),
            way: Cell::bare(place.way.map_or("", Way::name)),
            kind: Cell::new(style, kind),
            ..Row::default()
        }
    }

    fn cells(self) -> [Cell; COLUMNS.len()] {
        let Row { line, way, kind, send, receive, what, direction, cause, .. } = self;
        let Row { address, originator, objects, form, marks, .. } = self;
        [
            line, way, kind, send, receive, what, direction, cause, address, originator, objects,
            form, marks,
        ]
    }

    pub fn put(self, out: &mut String, paint: Paint) {
        put_cells(out, paint, self.cells());
    }
}

pub fn put_heading(out: &mut String, paint: Paint) {
    put_cells(out, paint, COLUMNS.map(|column| Cell::new(Style::Title, column.title)));
}

/// A text that is longer than its column takes the place of empty ones behind it.
fn put_cells(out: &mut String, paint: Paint, cells: [Cell; COLUMNS.len()]) {
    let mut at = 0;
    let cells = COLUMNS.iter().zip(cells).filter(|(_, cell)| !cell.text.is_empty());
    for (column, Cell { style, text }) in cells {
        let len = text.chars().count();
        let start = match column.side {
            Side::Left => column.start,
            Side::Right => column.start.max(column.end.saturating_sub(len)),
        };
        let blanks = start.saturating_sub(at).max(usize::from(at > 0));
        let _ = write!(out, "{:blanks$}{}", "", paint.text(style, &text));
        at += blanks + len;
    }
    out.push('\n');
}

#[cfg(test)]
mod tests {
    use super::*;
    use crate::paint::When;

    fn shown(row: Row) -> String {
        let mut out = String::new();
        row.put(&mut out, Paint::for_standard_output(When::Never));
        out
    }

    #[test]
    fn cells_stand_in_their_columns() {
        let place = Place { line: 7, way: Some(Way::Sent) };
        let row = Row {
            receive: Cell::bare(12),
            form: Cell::bare("plain"),
            ..Row::at(place, Style::Bare, "S")
        };
        let line = shown(row);
        assert_eq!((&line[5..6], &line[8..10], &line[12..13]), ("7", "tx", "S"));
        assert_eq!((&line[26..28], &line[99..]), ("12", "plain\n"));
    }

    #[test]
    fn a_long_cell_moves_only_what_it_covers() {
        let place = Place { line: 1_234_567_890, way: None };
        let long = "x".repeat(40);
        let row = Row {
            what: Cell::bare(&long),
            cause: Cell::bare("c"),
            form: Cell::bare("plain"),
            ..Row::at(place, Style::Bare, "U")
        };
        let line = shown(row);
        assert!(line.starts_with("1234567890  U"), "{line}");
        assert_eq!((&line[30..70], &line[70..73], &line[99..]), (&*long, " c ", "plain\n"));
    }
}
