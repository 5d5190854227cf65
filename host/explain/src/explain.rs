//! Explains inputs line by line. Nothing is kept of a line but what is counted.
use std::{
    io::{self, BufRead, BufReader, BufWriter, Read, Write},
    process::ExitCode,
};

use crate::{
    line,
    paint::{Paint, Style},
    proved,
    rows::Place,
    summary::Summary,
    table::Table,
};

const BUFFER: usize = 1 << 16;

#[derive(Debug)]
pub enum Failure {
    Input(io::Error),
    Output(io::Error),
}

pub struct Explanation<W: Write> {
    out: BufWriter<W>,
    table: Table,
    summary: Summary,
    has_heading: bool,
    /// Filled anew for each line.
    octets: Vec<u8>,
    shown: String,
}

impl<W: Write> Explanation<W> {
    pub fn new(out: W, paint: Paint) -> Explanation<W> {
        Explanation {
            out: BufWriter::with_capacity(BUFFER, out),
            table: Table { paint },
            summary: Summary::default(),
            has_heading: false,
            octets: Vec::new(),
            shown: String::new(),
        }
    }

    /// What was explained is seen before the next line is waited for.
    pub fn input(&mut self, title: Option<&str>, input: impl Read) -> Result<(), Failure> {
        if let Some(title) = title {
            writeln!(self.out, "{title}").map_err(Failure::Output)?;
        }
        let mut input = BufReader::with_capacity(BUFFER, input);
        let (mut line, mut number) = (Vec::new(), 0);
        loop {
            if input.buffer().is_empty() {
                self.out.flush().map_err(Failure::Output)?;
            }
            line.clear();
            if input.read_until(b'\n', &mut line).map_err(Failure::Input)? == 0 {
                return Ok(());
            }
            number += 1;
            self.line(number, line::without_end(&line)).map_err(Failure::Output)?;
        }
    }

    fn line(&mut self, number: u64, line: &[u8]) -> io::Result<()> {
        self.summary.line();
        if line::is_skipped(line) {
            self.summary.skipped();
            return Ok(());
        }
        self.shown.clear();
        if !self.has_heading {
            self.table.heading(&mut self.shown);
            self.has_heading = true;
        }
        self.show(number, line);
        self.out.write_all(self.shown.as_bytes())
    }

    fn show(&mut self, line: u64, text: &[u8]) {
        let (way, start) = line::way(text);
        let place = Place { line, way };
        if let Err(fault) = line::read(text, start, &mut self.octets) {
            self.summary.not_hex();
            return self.table.fault(&mut self.shown, place, &fault);
        }
        match proved::read(&self.octets) {
            Ok(frame) => {
                self.summary.frame(&frame);
                self.table.frame(&mut self.shown, place, &self.octets, &frame);
            }
            Err(number) => {
                self.summary.refused();
                self.table.refused(&mut self.shown, place, &self.octets, number);
            }
        }
    }

    /// The summary's line.
    pub fn close(&mut self) -> io::Result<()> {
        let style = if self.summary.bad() == 0 { Style::Good } else { Style::Bad };
        let text = self.table.paint.text(style, &self.summary.to_string());
        writeln!(self.out, "{text}")?;
        self.out.flush()
    }

    pub fn status(&self) -> ExitCode {
        if self.summary.bad() == 0 { ExitCode::SUCCESS } else { ExitCode::FAILURE }
    }
}
