//! What is shown of a line of the log: a row, and below it a line for each object and for octets that are marked.
use std::fmt::Write as _;

use crate::{
    line::Fault,
    objects,
    paint::{Paint, Style},
    proved::{Frame, Kind},
    record::{Object, Record},
    rows::{self, Cell, INDENT, Place, Row},
    words,
};

/// How many octets stand in a line.
const OCTETS_IN_A_LINE: usize = 16;

#[derive(Clone, Copy)]
pub struct Table {
    pub paint: Paint,
}

impl Table {
    pub fn heading(self, out: &mut String) {
        rows::put_heading(out, self.paint);
    }

    pub fn frame(self, out: &mut String, place: Place, octets: &[u8], frame: &Frame) {
        let row = match &frame.kind {
            Kind::I { send, receive, record } => i_row(place, *send, *receive, record),
            Kind::S { receive } => {
                Row { receive: Cell::bare(receive), ..Row::at(place, Style::Name, "S") }
            }
            Kind::U { flags } => u_row(place, *flags),
        };
        Row { form: form(frame.plain), ..row }.put(out, self.paint);
        if let Kind::I { record, .. } = &frame.kind {
            record.objects.iter().for_each(|object| self.object(out, object));
        }
        self.reserved(out, octets, &frame.written);
    }

    pub fn refused(self, out: &mut String, place: Place, octets: &[u8], number: u32) {
        let words = words::refusal(number).unwrap_or("see docs/REFUSALS.md");
        self.bad(out, place, &format!("refused {number}"), words);
        let shown = &octets[..octets.len().min(OCTETS_IN_A_LINE)];
        let more = if shown.len() < octets.len() { ".." } else { "" };
        self.octets(out, 0, shown, &[]);
        let _ = writeln!(out, "{more}  {} in all", octets.len());
    }

    pub fn fault(self, out: &mut String, place: Place, fault: &Fault) {
        self.bad(out, place, "not hex", &fault.to_string());
    }

    fn bad(self, out: &mut String, place: Place, what: &str, why: &str) {
        Row { what: Cell::bare(why), ..Row::at(place, Style::Bad, what) }.put(out, self.paint);
    }

    fn object(self, out: &mut String, object: &Object) {
        let shown = objects::shown(object);
        let (address, what) = (object.address, words::type_of(object.kind).object);
        let _ = write!(out, "{INDENT}IOA {address:>8}  {what}");
        if !shown.value.is_empty() {
            let value = self.paint.text(Style::Name, &format!("{:>14}", shown.value));
            let blanks = 16 - what.len().min(16);
            let _ = write!(out, "{:blanks$}  {value}", "");
        }
        let notes: Vec<String> =
            shown.notes.iter().map(|note| self.paint.text(note.style, &note.text)).collect();
        let _ = writeln!(out, "{}{}", if notes.is_empty() { "" } else { "  " }, notes.join(", "));
    }

    /// The octets that are written again otherwise than they came, each within its line of octets.
    fn reserved(self, out: &mut String, octets: &[u8], written: &[u8]) {
        let lines = octets.chunks(OCTETS_IN_A_LINE).zip(written.chunks(OCTETS_IN_A_LINE));
        for (nth, (came, kept)) in lines.enumerate().filter(|(_, (came, kept))| came != kept) {
            let offset = nth * OCTETS_IN_A_LINE;
            let marked: Vec<bool> = came.iter().zip(kept).map(|(a, b)| a != b).collect();
            self.octets(out, offset, came, &marked);
            out.push('\n');
            for at in (0..came.len()).filter(|&at| marked[at]) {
                self.reserved_octet(out, offset + at, came[at], kept[at]);
            }
        }
    }

    fn reserved_octet(self, out: &mut String, offset: usize, came: u8, kept: u8) {
        let bits = self.paint.text(Style::Warning, &format!("{:02X}", came ^ kept));
        let _ = write!(out, "{INDENT}offset {offset:>3}  {came:02X} has the reserved bits {bits}");
        let _ = writeln!(out, ", written again it is {kept:02X}");
    }

    /// A line of octets, the marked ones in brackets; its end is the caller's.
    fn octets(self, out: &mut String, offset: usize, octets: &[u8], marked: &[bool]) {
        let _ = write!(out, "{INDENT}octets {offset:>3} ");
        let mut before = false;
        for (at, octet) in octets.iter().enumerate() {
            let mark = marked.get(at) == Some(&true);
            let style = if mark { Style::Warning } else { Style::Bare };
            out.push(between(before, mark));
            out.push_str(&self.paint.text(style, &format!("{octet:02X}")));
            before = mark;
        }
        out.push_str(if before { "]" } else { "" });
    }
}

/// What stands between two octets, by whether each is marked.
fn between(left: bool, right: bool) -> char {
    match (left, right) {
        (false, false) => ' ',
        (false, true) => '[',
        (true, false) => ']',
        (true, true) => '|',
    }
}

fn form(plain: bool) -> Cell {
    if plain { Cell::new(Style::Good, "plain") } else { Cell::new(Style::Warning, "reserved") }
}

fn u_row(place: Place, flags: [bool; 6]) -> Row {
    let set = words::FUNCTIONS.into_iter().zip(flags).filter(|(_, set)| *set);
    let functions: Vec<&str> = set.map(|(function, _)| function).collect();
    let what = match functions.as_slice() {
        [] => Cell::new(Style::Warning, "no function"),
        [function] => Cell::new(Style::Name, function),
        several => Cell::new(Style::Warning, several.join(" and ")),
    };
    Row { what, ..Row::at(place, Style::Name, "U") }
}

fn i_row(place: Place, send: u16, receive: u16, record: &Record) -> Row {
    let of = words::type_of(record.type_id);
    let sequence = if record.sequence { " seq" } else { "" };
    let marks = [("negative", record.negative), ("test", record.test)];
    let marks = marks.into_iter().filter(|(_, set)| *set).map(|(mark, _)| mark);
    Row {
        send: Cell::bare(send),
        receive: Cell::bare(receive),
        what: Cell::new(Style::Name, of.name),
        direction: Cell::bare(words::direction(of, record.cause)),
        cause: Cell::bare(format!("{:>2} {}", record.cause, words::cause(record.cause))),
        address: Cell::bare(record.address),
        originator: Cell::bare(record.originator),
        objects: Cell::bare(format!("{}{sequence}", record.objects.len())),
        marks: Cell::new(Style::Warning, marks.collect::<Vec<_>>().join(", ")),
        ..Row::at(place, Style::Name, "I")
    }
}

#[cfg(test)]
mod tests {
    use super::*;
    use crate::{line, paint::When, proved};

    fn shown(hex: &str) -> String {
        let (mut out, mut octets) = (String::new(), Vec::new());
        line::read(hex.as_bytes(), 0, &mut octets).expect("hexadecimal");
        let table = Table { paint: Paint::for_standard_output(When::Never) };
        let place = Place { line: 1, way: None };
        match proved::read(&octets) {
            Ok(frame) => table.frame(&mut out, place, &octets, &frame),
            Err(number) => table.refused(&mut out, place, &octets, number),
        }
        out
    }

    #[test]
    fn neighbours_with_reserved_bits() {
        let out = shown("68 10 00 00 00 00 01 83 03 00 01 00 0A 00 00 02 0F 00");
        assert!(out.contains("octets   0  68 10 00 00 00 00 01 83 03 00 01 00 0A 00 00[02]\n"));
        assert!(out.contains("offset  15  02 has the reserved bits 02, written again it is 00\n"));
        assert!(out.contains("octets  16 [0F]00\n"), "{out}");
        assert!(out.contains("offset  16  0F has the reserved bits 0E, written again it is 01\n"));
        let out = shown("68 11 00 00 00 00 01 84 03 00 01 00 0A 00 00 00 02 04 00");
        assert!(out.contains("octets  16 [02|04]00\n"), "{out}");
    }

    #[test]
    fn flags_of_u_frames() {
        assert!(shown("68 04 03 00 00 00").contains(" no function "));
        assert!(shown("68 04 FF 00 00 00").contains(" STARTDT act and STARTDT con and STOPDT act"));
    }

    #[test]
    fn marks_of_an_asdu() {
        assert!(
            shown("68 0E 00 00 00 00 64 01 C7 00 01 00 00 00 00 14").contains("negative, test")
        );
        assert!(shown("68 0E 00 00 00 00 64 01 87 00 01 00 00 00 00 14").contains("  test\n"));
    }

    #[test]
    fn an_object_without_fields() {
        let out = shown("68 0D 00 00 00 00 66 01 05 00 01 00 0A 00 00");
        assert!(out.ends_with("IOA       10  read request\n"), "{out}");
    }

    #[test]
    fn refused_frames_show_their_first_octets() {
        let out = shown(&"FF".repeat(20));
        assert!(out.contains("refused 2"), "{out}");
        assert!(out.ends_with(&format!("octets   0 {}..  20 in all\n", " FF".repeat(16))), "{out}");
        assert!(shown("").ends_with("octets   0   0 in all\n"));
    }
}
