//! The words of the command line.
use std::ffi::OsString;

use crate::paint::When;

pub const HELP: &str = "explain [--color=always|never|auto] [FILE..]
Shows the IEC 60870-5-104 frames of a log, as the proved library reads them. Without FILE, or where FILE is -, it reads
standard input.

A line of the log is one frame in hexadecimal. Between octets there may be blanks, tabs, colons and hyphens. It may begin
with > or tx (sent), < or rx (received). Blank lines and lines that begin with # are skipped.

Of each frame: its line; kind; send number N(S) and receive number N(R); type; direction, monitor (towards the control
centre) or control (from it); cause; common address CA and originator OA; how many objects, with `seq` where the sequence
bit is set; its form; and negative and test marks. Below it stands a line for each object, with its address IOA.
The form is `plain` where writing the frame again gives the same octets. Otherwise it is `reserved`: the octets with
reserved bits stand in brackets below. Offsets are counted from 0, columns of a line from 1.

A frame that is refused has the number of docs/REFUSALS.md and its words.
Colour comes on a terminal, unless NO_COLOR is set.
Exit status: 0; 1 where a line was refused or is not hexadecimal; 2 for a wrong option, or a file that cannot be read.";

pub struct Options {
    pub colour: When,
    pub files: Vec<OsString>,
}

#[derive(Debug, PartialEq)]
pub enum Ended {
    Help,
    Wrong(String),
}

pub fn parse(words: impl Iterator<Item = OsString>) -> Result<Options, Ended> {
    let mut options = Options { colour: When::Auto, files: Vec::new() };
    let mut only_files = false;
    for word in words {
        let text = word.to_str().unwrap_or_default();
        match text {
            "--" if !only_files => only_files = true,
            "-h" | "--help" if !only_files => return Err(Ended::Help),
            _ if !only_files && text.len() > 1 && text.starts_with('-') => {
                options.colour = colour(text).ok_or_else(|| Ended::Wrong(format!("{text}?")))?;
            }
            _ => options.files.push(word),
        }
    }
    if options.files.is_empty() {
        options.files.push("-".into());
    }
    Ok(options)
}

fn colour(option: &str) -> Option<When> {
    match option {
        "--color=always" => Some(When::Always),
        "--color=never" => Some(When::Never),
        "--color=auto" => Some(When::Auto),
        _ => None,
    }
}

#[cfg(test)]
mod tests {
    use super::*;

    fn files(words: &[&str]) -> Result<Vec<String>, Ended> {
        let options = parse(words.iter().map(OsString::from))?;
        Ok(options.files.into_iter().map(|file| file.into_string().expect("text")).collect())
    }

    #[test]
    fn files_and_options() {
        assert_eq!(files(&[]), Ok(vec!["-".into()]));
        assert_eq!(files(&["--color=never", "a", "-"]), Ok(vec!["a".into(), "-".into()]));
        assert_eq!(files(&["--", "--help"]), Ok(vec!["--help".into()]));
        assert_eq!(files(&["a", "--help"]), Err(Ended::Help));
        assert_eq!(files(&["--colour"]), Err(Ended::Wrong("--colour?".into())));
    }
}
