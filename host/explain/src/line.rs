//! A line of a log: a mark of the way that the frame went, if there is one, then its octets in hexadecimal.
use std::fmt;

#[derive(Clone, Copy, Debug, PartialEq)]
pub enum Way {
    Sent,
    Received,
}

/// What a line may begin with; the words in capitals too.
const MARKS: [(&str, Way); 4] =
    [(">", Way::Sent), ("tx", Way::Sent), ("<", Way::Received), ("rx", Way::Received)];

/// Why a line has no octets, and in which column, counted from 1.
#[derive(Debug, PartialEq)]
pub enum Fault {
    NoDigit { column: usize, byte: u8 },
    HalfAnOctet { column: usize },
}

impl Way {
    pub fn name(self) -> &'static str {
        match self {
            Way::Sent => "tx",
            Way::Received => "rx",
        }
    }
}

impl fmt::Display for Fault {
    fn fmt(&self, f: &mut fmt::Formatter) -> fmt::Result {
        match *self {
            Fault::NoDigit { column, byte } if byte.is_ascii_graphic() => {
                write!(f, "column {column}: '{}' is no hexadecimal digit", char::from(byte))
            }
            Fault::NoDigit { column, byte } => {
                write!(f, "column {column}: the byte {byte:02X} is no hexadecimal digit")
            }
            Fault::HalfAnOctet { column } => {
                write!(f, "column {column}: this digit stands alone, an octet has two")
            }
        }
    }
}

/// Without its end, `\n` or `\r\n`.
pub fn without_end(line: &[u8]) -> &[u8] {
    let line = line.strip_suffix(b"\n").unwrap_or(line);
    line.strip_suffix(b"\r").unwrap_or(line)
}

/// A blank line, or a comment.
pub fn is_skipped(line: &[u8]) -> bool {
    matches!(line.trim_ascii_start().first(), None | Some(b'#'))
}

/// The way that the line's mark says, and where the octets begin.
pub fn way(line: &[u8]) -> (Option<Way>, usize) {
    let blanks = line.len() - line.trim_ascii_start().len();
    for (mark, way) in MARKS {
        let end = blanks + mark.len();
        if line.get(blanks..end).is_some_and(|word| word.eq_ignore_ascii_case(mark.as_bytes())) {
            return (Some(way), end);
        }
    }
    (None, blanks)
}

/// Puts the octets of the line from `start` on into `octets`. Separators stand between octets, not within one.
pub fn read(line: &[u8], start: usize, octets: &mut Vec<u8>) -> Result<(), Fault> {
    octets.clear();
    let mut first = None;
    for (at, &byte) in line.iter().enumerate().skip(start) {
        match (digit(byte), first.take()) {
            (Some(high), None) => first = Some(high),
            (Some(low), Some(high)) => octets.push(high << 4 | low),
            (None, _) if !is_separator(byte) => {
                return Err(Fault::NoDigit { column: at + 1, byte });
            }
            (None, Some(_)) => return Err(Fault::HalfAnOctet { column: at }),
            (None, None) => {}
        }
    }
    match first {
        Some(_) => Err(Fault::HalfAnOctet { column: line.len() }),
        None => Ok(()),
    }
}

fn digit(byte: u8) -> Option<u8> {
    char::from(byte).to_digit(16).map(|digit| digit as u8)
}

fn is_separator(byte: u8) -> bool {
    matches!(byte, b' ' | b'\t' | b':' | b'-')
}

#[cfg(test)]
mod tests {
    use super::*;

    fn octets(line: &str) -> Result<(Option<Way>, Vec<u8>), Fault> {
        let line = without_end(line.as_bytes());
        let (way, start) = way(line);
        let mut octets = vec![0xA5];
        read(line, start, &mut octets).map(|()| (way, octets))
    }

    #[test]
    fn separators_cases_and_ends() {
        let stop = Ok((None, vec![0x68, 0x04, 0x13, 0xAB]));
        for line in ["680413ab", "68 04 13 AB\r\n", "  68:04-13\tAb ", "6804 13aB\n"] {
            assert_eq!(octets(line), stop, "{line:?}");
        }
        assert_eq!(octets(""), Ok((None, vec![])));
    }

    #[test]
    fn marks() {
        for (line, way) in [
            ("> 68", Way::Sent),
            ("tx68", Way::Sent),
            ("TX: 68", Way::Sent),
            ("<68", Way::Received),
            (" Rx\t68", Way::Received),
        ] {
            assert_eq!(octets(line), Ok((Some(way), vec![0x68])), "{line:?}");
        }
    }

    #[test]
    fn faults_have_their_column() {
        let no_digit = |column, byte| Err(Fault::NoDigit { column, byte });
        let half = |column| Err(Fault::HalfAnOctet { column });
        assert_eq!(octets("68 0G"), no_digit(5, b'G'));
        assert_eq!(octets("rx 68 ü4"), no_digit(7, 0xC3));
        assert_eq!(octets("> tx 68"), no_digit(3, b't'));
        assert_eq!(octets("68\r04"), no_digit(3, b'\r'));
        assert_eq!(octets("68 4 01 00"), half(4));
        assert_eq!(octets("680\r\n"), half(3));
        assert_eq!(octets("rx 6"), half(4));
    }

    #[test]
    fn comments_and_blank_lines() {
        for line in ["", " \t", "# 68", "  # 68"] {
            assert!(is_skipped(line.as_bytes()), "{line:?}");
        }
        assert!(!is_skipped(b"68 # 04"));
    }
}
