//! The command as it is used: the sample log, other inputs, its exit status. `tools/explain --self-test` runs it.
use std::{
    fs,
    io::Write,
    path::{Path, PathBuf},
    process::{Command, Output, Stdio},
};

const PROGRAM: &str = env!("CARGO_BIN_EXE_grassglisten-explain");

fn document(name: &str) -> PathBuf {
    Path::new(env!("CARGO_MANIFEST_DIR")).join("../../docs").join(name)
}

fn text(name: &str) -> String {
    fs::read_to_string(document(name)).expect("a document")
}

/// Standard output and exit status, with this standard input.
fn explained(words: &[&str], input: &[u8]) -> (String, i32) {
    let Output { stdout, status, .. } = ran(words, input);
    (String::from_utf8(stdout).expect("text"), status.code().expect("an exit status"))
}

fn ran(words: &[&str], input: &[u8]) -> Output {
    let mut program = Command::new(PROGRAM);
    program.args(words).stdin(Stdio::piped()).stdout(Stdio::piped()).stderr(Stdio::piped());
    let mut child = program.spawn().expect("the program");
    let mut given = child.stdin.take().expect("its input");
    std::thread::scope(|scope| {
        scope.spawn(move || given.write_all(input));
        child.wait_with_output().expect("its output")
    })
}

fn without_colour(text: &str) -> String {
    let (first, rest) = text.split_once('\x1b').unwrap_or((text, ""));
    let rest = rest.split('\x1b').map(|part| part.split_once('m').map_or("", |(_, text)| text));
    first.chars().chain(rest.flat_map(str::chars)).collect()
}

#[test]
fn the_sample_is_explained_as_stored() {
    let sample = document("sample.log");
    let (shown, status) = explained(&[sample.to_str().expect("a name")], b"");
    assert_eq!(shown, text("sample.explained"), "{}", sample.display());
    assert_eq!(status, 1);
}

/// The README leaves lines out, and changes none.
#[test]
fn the_readme_shows_what_comes_out() {
    let (readme, stored) = (text("../README.md"), text("sample.explained"));
    let (_, section) = readme.split_once("## A log explained\n").expect("its section");
    let (section, _) = section.split_once("\n## ").expect("its end");
    let mut stored = stored.lines();
    let shown: Vec<&str> = section.lines().filter_map(|line| line.strip_prefix("    ")).collect();
    for line in &shown {
        assert!(stored.any(|expected| expected == *line), "not in docs/sample.explained: {line}");
    }
    assert!(shown.len() > 10);
    assert_eq!(stored.next(), None, "the summary's line comes last");
}

#[test]
fn input_ends_of_lines_and_case_change_nothing() {
    let log = text("sample.log");
    let stored = (text("sample.explained"), 1);
    assert_eq!(explained(&[], log.as_bytes()), stored);
    assert_eq!(explained(&["-"], log.replace('\n', "\r\n").as_bytes()), stored);
    assert_eq!(explained(&[], log.trim_end().as_bytes()), stored);
    assert_eq!(explained(&[], log.to_lowercase().replace(' ', "\t").as_bytes()), stored);
}

#[test]
fn nothing_depends_on_colour() {
    let log = text("sample.log");
    let (shown, _) = explained(&["--color=always"], log.as_bytes());
    assert!(shown.contains("\x1b[1;33m0E\x1b[0m"));
    assert_eq!(without_colour(&shown), text("sample.explained"));
}

#[test]
fn exit_status() {
    let good = b"680443000000\n# 68\n\n68 04 01 00 03 00\n";
    let (shown, status) = explained(&[], good);
    assert_eq!(status, 0);
    assert!(
        shown.ends_with(
            "lines 4, skipped 2; frames I 0, S 1, U 1; plain 1, with reserved bits 1; \
             bad 0 (refused 0, not hex 0)\n"
        ),
        "{shown}"
    );
    for bad in ["zz", "680", "69 04 43 00 00 00", "-", "tx"] {
        assert_eq!(explained(&[], bad.as_bytes()).1, 1, "{bad}");
    }
    assert_eq!(explained(&["--colour"], b"").1, 2);
    assert_eq!(explained(&["no such file"], b"").1, 2);
    assert_eq!(explained(&["no such file", "-"], b"zz").1, 2);
    assert_eq!(explained(&["/"], b"").1, 2);
    let (help, status) = explained(&["--help"], b"");
    assert!(help.starts_with("explain ") && status == 0);
}

#[test]
fn several_files_have_their_names_and_lines() {
    let sample = document("sample.log");
    let sample = sample.to_str().expect("a name");
    let (shown, status) = explained(&[sample, "-"], b"\n680443000000\n");
    assert!(shown.starts_with(&format!("{sample}\n  line ")), "{shown}");
    assert!(shown.contains("\n-\n     2      U                 TESTFR act "), "{shown}");
    assert_eq!(status, 1);
}

#[test]
fn long_lines_and_many() {
    let mut log = "68 ".repeat(1 << 20);
    log.push('\n');
    log.push_str(&"680443000000\n".repeat(100_000));
    let (shown, status) = explained(&[], log.as_bytes());
    assert_eq!(status, 1);
    assert_eq!(shown.lines().count(), 1 + 2 + 100_000 + 1);
    assert!(shown.contains("..  1048576 in all\n"));
    assert!(shown.contains("\n100001      U "), "line numbers");
}

/// What reads the output goes away after the first lines.
#[test]
fn a_closed_pipe_ends_it_quietly() {
    let log = std::env::temp_dir().join(format!("explain-{}.log", std::process::id()));
    fs::write(&log, "680443000000\n".repeat(50_000)).expect("a file");
    let mut program = Command::new(PROGRAM);
    program.arg(&log).stdout(Stdio::piped()).stderr(Stdio::piped());
    let mut child = program.spawn().expect("the program");
    drop(child.stdout.take());
    let output = child.wait_with_output().expect("its end");
    fs::remove_file(&log).expect("the file");
    assert_eq!(String::from_utf8_lossy(&output.stderr), "");
    assert_eq!(output.status.code(), Some(0));
}
