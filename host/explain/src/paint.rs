//! Colour, where it is wanted.
use std::{
    env,
    ffi::OsString,
    io::{self, IsTerminal},
};

#[derive(Clone, Copy, PartialEq)]
pub enum When {
    Always,
    Never,
    /// On a terminal, unless `NO_COLOR` (https://no-color.org) or the terminal itself asks for none.
    Auto,
}

#[derive(Clone, Copy, Default)]
pub enum Style {
    #[default]
    Bare,
    Title,
    Name,
    Good,
    Warning,
    Bad,
}

#[derive(Clone, Copy)]
pub struct Paint {
    coloured: bool,
}

impl Paint {
    pub fn for_standard_output(when: When) -> Paint {
        let coloured = match when {
            When::Always => true,
            When::Never => false,
            When::Auto => io::stdout().is_terminal() && is_wanted(|name| env::var_os(name)),
        };
        Paint { coloured }
    }

    pub fn text(self, style: Style, text: &str) -> String {
        match style.code() {
            Some(code) if self.coloured && !text.is_empty() => format!("\x1b[{code}m{text}\x1b[0m"),
            _ => text.to_owned(),
        }
    }
}

fn is_wanted(variable: impl Fn(&str) -> Option<OsString>) -> bool {
    let refused = variable("NO_COLOR").is_some_and(|value| !value.is_empty());
    let dumb = variable("TERM").is_some_and(|terminal| terminal == "dumb");
    !refused && !dumb
}

impl Style {
    fn code(self) -> Option<&'static str> {
        match self {
            Style::Bare => None,
            Style::Title => Some("2"),
            Style::Name => Some("1"),
            Style::Good => Some("32"),
            Style::Warning => Some("1;33"),
            Style::Bad => Some("1;31"),
        }
    }
}

#[cfg(test)]
mod tests {
    use super::*;

    #[test]
    fn colour_only_where_wanted() {
        let always = Paint::for_standard_output(When::Always);
        assert_eq!(always.text(Style::Bad, "refused"), "\x1b[1;31mrefused\x1b[0m");
        assert_eq!(always.text(Style::Bare, "1"), "1");
        assert_eq!(always.text(Style::Bad, ""), "");
        let never = Paint::for_standard_output(When::Never);
        assert_eq!(never.text(Style::Bad, "refused"), "refused");
    }

    #[test]
    fn the_environment_can_refuse() {
        let wanted = |name: &'static str, value: &'static str| {
            is_wanted(move |asked| (asked == name).then(|| value.into()))
        };
        assert!(wanted("TERM", "xterm"));
        assert!(!wanted("TERM", "dumb"));
        assert!(!wanted("NO_COLOR", "1"));
        assert!(wanted("NO_COLOR", ""));
    }
}
