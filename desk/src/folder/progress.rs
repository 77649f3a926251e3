//! One line that tells how far a run is, where somebody looks at it.

use std::io::{self, IsTerminal, Write};
use std::sync::{Mutex, PoisonError};
use std::time::{Duration, Instant};

use crate::language::Language;
use crate::words::folder as words;

/// No more often than the eye follows.
const PAUSE: Duration = Duration::from_millis(100);

pub struct Progress {
    is_shown: bool,
    total: usize,
    language: Language,
    state: Mutex<State>,
}

struct State {
    done: usize,
    said: Option<Instant>,
    /// Letters of the line that is shown.
    width: usize,
}

impl Progress {
    pub fn new(total: usize, language: Language) -> Progress {
        Progress {
            is_shown: io::stderr().is_terminal(),
            total,
            language,
            state: Mutex::new(State {
                done: 0,
                said: None,
                width: 0,
            }),
        }
    }

    pub fn one_more(&self) {
        let mut state = self.state.lock().unwrap_or_else(PoisonError::into_inner);
        state.done += 1;
        let is_early = state.said.is_some_and(|said| said.elapsed() < PAUSE);
        if !self.is_shown || is_early {
            return;
        }
        let done = self.language.number(state.done as i128);
        let total = self.language.number(self.total as i128);
        let line = self.language.say(words::PROGRESS, &[&done, &total]);
        put(&format!("\r{line}"));
        state.said = Some(Instant::now());
        state.width = line.chars().count();
    }

    /// Leaves the terminal's line empty.
    pub fn remove(self) {
        let state = self
            .state
            .into_inner()
            .unwrap_or_else(PoisonError::into_inner);
        if state.width > 0 {
            put(&format!("\r{}\r", " ".repeat(state.width)));
        }
    }
}

/// Where it fails there is nobody to tell.
fn put(text: &str) {
    let mut error = io::stderr().lock();
    let _ = error
        .write_all(text.as_bytes())
        .and_then(|()| error.flush());
}
