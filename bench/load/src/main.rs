//! A load client for the broker, and the floor: a server that does nothing but HTTP and the flushes.
//!
//!     load accepts SERVER ADDRESS CONNECTIONS COUNT
//!     load lives SERVER ADDRESS CALLERS RUNTIMES SECONDS MOST own|oldest
//!     load collects ADDRESS ADMIN EVENTS ROUNDS
//!     load floor ADDRESS FOLDER [start] [half]
//!     load flushes FOLDER SECONDS
//!
//! SERVER is `broker` or `floor`. Each measurement prints one line of JSON. A reply before its end that is no 2xx ends it with
//! status 1, so nothing that was refused is counted. But with `oldest` a broker's DELETE may be told 404: another runtime has
//! collected that record, and the oldest is read again.
mod accepts;
mod collects;
mod connection;
mod floor;
mod flushes;
mod lives;
mod servers;
mod times;

use std::env;
use std::error::Error;
use std::process::ExitCode;

pub type Result<T> = std::result::Result<T, Box<dyn Error + Send + Sync>>;

/// A JSON event of 100 bytes with a number, by which it is known again.
pub fn payload(number: u64) -> Vec<u8> {
    let mut text = format!("{{\"number\":\"{number:020}\",\"text\":\"").into_bytes();
    text.resize(98, b'x');
    text.extend_from_slice(b"\"}");
    text
}

/// The number of an event: the first 20 digits in it.
pub fn number_of(payload: &[u8]) -> Option<u64> {
    let digits = payload.windows(20).find(|window| window.iter().all(u8::is_ascii_digit))?;
    std::str::from_utf8(digits).ok()?.parse().ok()
}

fn run(words: &[&str]) -> Result<()> {
    match words {
        ["accepts", server, address, connections, count] => {
            accepts::measure(server, address, connections.parse()?, count.parse()?)
        }
        ["lives", server, address, callers, runtimes, seconds, most, how @ ("own" | "oldest")] => {
            let plan = lives::Plan {
                callers: callers.parse()?,
                runtimes: runtimes.parse()?,
                seconds: seconds.parse()?,
                most: most.parse()?,
                reads_the_oldest: *how == "oldest",
            };
            lives::measure(server, address, plan)
        }
        ["collects", address, admin, events, rounds] => collects::measure(address, admin, events.parse()?, rounds.parse()?),
        ["floor", address, folder, rest @ ..] => floor::serve(address, folder, rest.contains(&"start"), rest.contains(&"half")),
        ["flushes", folder, seconds] => flushes::measure(folder, seconds.parse()?),
        _ => Err("the words are those at the head of main.rs".into()),
    }
}

fn main() -> ExitCode {
    let words: Vec<String> = env::args().skip(1).collect();
    let words: Vec<&str> = words.iter().map(String::as_str).collect();
    match run(&words) {
        Ok(()) => ExitCode::SUCCESS,
        Err(fault) => {
            eprintln!("load: {fault}");
            ExitCode::FAILURE
        }
    }
}
