//! Shows what the Rust does with an input, for a look at an entry of docs/DIFFERENCES.md.
use std::{
    fmt::Debug,
    panic::{self, UnwindSafe},
    time::Duration,
};

use iec104::{
    apdu::Apdu,
    asdu::Asdu,
    config::ProtocolConfig,
    errors,
    link::{Event, Link, Start, State},
};

use crate::{hex, panics, refusals};

pub fn frame(text: &str) -> Result<bool, String> {
    let octets = hex::to_octets(text)?;
    show(move || match Apdu::from_bytes(&octets) {
        Ok(apdu) => {
            println!("reads {:?}", apdu.frame);
            let again = apdu.frame.to_apdu_bytes().map_err(|error| errors::path(&error));
            show_writing(again);
        }
        Err(error) => show_refusal(&errors::path(&error)),
    })
}

pub fn asdu(text: &str) -> Result<bool, String> {
    let octets = hex::to_octets(text)?;
    show(move || match Asdu::parse(&octets) {
        Ok(asdu) => {
            println!("reads {asdu:?}");
            let mut again = Vec::new();
            let written = asdu.to_bytes(&mut again).map_err(|error| errors::path(&error));
            show_writing(written.map(|()| again));
        }
        Err(error) => show_refusal(&errors::path(&error)),
    })
}

/// Runs what shows an answer; a panic of the Rust is an answer too.
fn show(answer: impl FnOnce() + UnwindSafe) -> Result<bool, String> {
    if panics::caught(answer).is_none() {
        println!("panics");
    }
    Ok(true)
}

fn show_writing(written: Result<Vec<u8>, String>) {
    match written {
        Ok(octets) => println!("writes {}", hex::from_octets(&octets)),
        Err(path) => {
            println!("refuses to write: {path} ({})", told(refusals::number_in_writing(&path)));
        }
    }
}

fn show_refusal(path: &str) {
    println!("refuses: {path} ({})", told(refusals::number(path)));
}

fn told(number: Option<u8>) -> String {
    number.map_or("no number of document 01".to_owned(), |number| format!("document 01: {number}"))
}

/// A link of the given settings, and a line for each event.
pub fn link(words: &[&str]) -> Result<bool, String> {
    panic::set_hook(Box::new(|_| {}));
    let (mut config, mut start) = (ProtocolConfig::default(), Start::default());
    let mut words = words.iter().copied().peekable();
    while let Some((setting, value)) = words.peek().and_then(|word| word.split_once('=')) {
        match setting {
            "sent" => start.sent = number(value)?,
            "received" => start.received = number(value)?,
            "unconfirmed" => start.unconfirmed = number(value)?,
            _ if set(&mut config, setting, value)? => {}
            _ => break,
        }
        words.next();
    }
    let mut link = Link::open(&config, start);
    for word in words {
        let step = link.step(event(word)?);
        let state = match step.state {
            State::Failed(path) => format!("failed: {path} ({})", told(refusals::number(&path))),
            state => format!("{state:?}").to_lowercase(),
        };
        let taken = step.taken.map_or(String::new(), |taken| format!(", taken {taken}"));
        let (written, came, full) = (hex::from_octets(&step.written), step.came, step.window_full);
        println!("{word}: wrote {written:?}, came {came}, full {full}{taken}, {state}");
    }
    Ok(true)
}

fn set(config: &mut ProtocolConfig, setting: &str, value: &str) -> Result<bool, String> {
    match setting {
        "k" => config.k = number(value)?,
        "w" => config.w = number(value)?,
        "p" => config.max_pending_outgoing_asdu = number(value)?,
        "t1" => config.t1 = Duration::from_millis(number(value)?),
        "t2" => config.t2 = Duration::from_millis(number(value)?),
        "t3" => config.t3 = Duration::from_millis(number(value)?),
        _ => return Ok(false),
    }
    Ok(true)
}

fn event(word: &str) -> Result<Event, String> {
    let (name, value) = word.split_once('=').unwrap_or((word, ""));
    Ok(match name {
        "recv" => Event::Receive(hex::to_octets(value)?),
        "send" => Event::Send(parsed(value)?),
        "stop" => Event::Stop,
        "test" => Event::Test,
        "end" => Event::End,
        "advance" => Event::Advance(number(value)?),
        "skip" => Event::Skip(number(value)?),
        "first" => Event::PollFirst(number(value)?),
        _ => return Err(format!("{word}?")),
    })
}

fn parsed(text: &str) -> Result<Asdu, String> {
    Asdu::parse(&hex::to_octets(text)?).map_err(|error| errors::path(&error))
}

fn number<N: std::str::FromStr<Err: Debug>>(text: &str) -> Result<N, String> {
    text.parse().map_err(|error| format!("{text}: {error:?}"))
}
