//! Turns of `Connections` over viewers in memory, with no socket and no clock, so that two versions can be compared to the instruction:
//! a place is painted, each viewer asks, and turns go on until nothing is left to do. As `crates/count_turns/src/main.rt`, with the line
//! `count_turns: connections screen` in `crates.txt`:
//!
//! ```text
//! valgrind --tool=callgrind ./count_turns VIEWERS ROUNDS [whole]
//! ```
//!
//! counts ROUNDS dots, or as many whole pictures that one viewer asks for. Take the difference of two counts of rounds.
#![tactic(auto)]

use connections::{
    Application, Canvas, Connections, Draw, Input, Readiness, Receipt, Rect, ScreenError, Transport,
};
use screen::{Config, History, Listed};
use std::alloc::Global;
use std::env;
use std::io;
use std::process::ExitCode;

/// Version 3.8, None, shared, and Hextile.
const OPENING: &[u8] = b"RFB 003.008\n\x01\x01\x02\0\0\x01\0\0\0\x05";
/// Requests of 1920 by 1080 places: of all, and of what changed.
const ALL: &[u8] = b"\x03\0\0\0\0\0\x07\x80\x04\x38";
const CHANGED: &[u8] = b"\x03\x01\0\0\0\0\x07\x80\x04\x38";

/// A viewer that asks once behind each write.
#[derive(Drop)]
struct Viewer {
    is_open: bool,
    asks: bool,
    wants_all: bool,
    sent: u64,
}

impl Viewer {
    /// Returns what it says next, if it has something to say.
    fn next(&mut self) -> Option<&'static [u8]> {
        if !self.is_open {
            self.is_open = true;
            return Some(OPENING);
        }
        if !self.asks {
            return None;
        }
        self.asks = false;
        Some(if self.wants_all { ALL } else { CHANGED })
    }
}

impl Transport for Viewer {
    fn receive(&mut self, buffer: &mut [u8]) -> io::Result<usize> {
        let Some(says) = self.next() else {
            return Err(io::ErrorKind::WouldBlock.into());
        };
        let count = says.len().min(buffer.len());
        buffer[..count].copy_from_slice(&says[..count]);
        Ok(count)
    }

    fn send(&mut self, bytes: &[u8]) -> io::Result<usize> {
        self.sent = self.sent.wrapping_add(bytes.len() as u64);
        self.asks = true;
        Ok(bytes.len())
    }
}

/// An application that hears nothing.
#[derive(Drop)]
struct Nobody {}

impl Application for Nobody {
    fn on_input(&mut self, _: &mut Canvas, _: u64, _: &Input) -> Result<(), ScreenError> {
        Ok(())
    }

    fn left(&mut self, _: &mut Canvas, _: Receipt) -> Result<(), ScreenError> {
        Ok(())
    }
}

/// Paints a place, unless whole pictures are asked for, and takes turns until nothing is left to do.
fn round(
    served: &mut Connections<Viewer>,
    viewers: usize,
    number: u32,
    whole: bool,
) -> Result<(), ScreenError> {
    let x1 = (number % 1900) as i32;
    let place = Rect {
        x1,
        y1: 7,
        x2: x1 + 1,
        y2: 8,
    };
    if !whole {
        served.canvas().paint(place, &[number])?;
    }
    let ready = Readiness {
        may_read: true,
        may_write: true,
        is_hung_up: false,
    };
    for key in 0..viewers {
        served.note(key, ready)?;
    }
    served.turn(&mut Nobody {})?;
    served.flush_record();
    let mut turns = 1;
    while served.is_busy() && turns < 1000 {
        served.turn(&mut Nobody {})?;
        served.flush_record();
        turns += 1;
    }
    Ok(())
}

/// Serves the viewers for some rounds. Returns how many bytes the first one was sent.
fn run(alloc: Global, viewers: usize, rounds: u32, whole: bool) -> Result<u64, ScreenError> {
    let config = Config {
        width: 1920,
        height: 1080,
        name: Listed::from_slice(alloc, b"count")?,
        rects_per_update: 50,
        history: History::NotKept,
    };
    let mut served: Connections<Viewer> = Connections::new(alloc, config)?;
    for _ in 0..viewers {
        served.admit(Viewer {
            is_open: false,
            asks: true,
            wants_all: whole,
            sent: 0,
        })?;
    }
    for number in 0..rounds {
        round(&mut served, viewers, number, whole)?;
    }
    Ok(served.transport(0).map_or(0, |viewer| viewer.sent))
}

/// Returns a word of the command line as a number, or else 1.
fn number(words: &[String], at: usize) -> u32 {
    words.get(at).map_or(1, |word| word.parse().unwrap_or(1))
}

fn main(rt: HostRuntime) -> ExitCode {
    let Ok(words) = env::args(&rt) else {
        return ExitCode::FAILURE;
    };
    let Ok(words): Result<Vec<String>, _> = words.collect(rt.alloc()) else {
        return ExitCode::FAILURE;
    };
    let (viewers, rounds) = (number(&words, 1), number(&words, 2));
    match run(rt.alloc(), viewers as usize, rounds, words.len() > 3) {
        Ok(sent) => match println!(rt; "{sent}") {
            Ok(()) => ExitCode::SUCCESS,
            Err(_) => ExitCode::FAILURE,
        },
        Err(_) => ExitCode::FAILURE,
    }
}
