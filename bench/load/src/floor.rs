//! The floor: the least that a server of events does which answers once they are durable. It recovers nothing.
//!
//!     POST /events          202, with its Id
//!     GET /next             200 with an Id and the event, or 204 after a second
//!     POST /answers/ID      202
//!     GET /answers/ID       200
//!     DELETE /answers/ID    204
//!
//! Each of them but the GETs is answered after a commit of all that came meanwhile, which is two writes with a flush behind
//! each: the records, and a mark. With `start` an event is handed out behind a commit, too. With `half` the mark of one commit
//! is written with the records of the next one: one flush for both.
use crate::flushes::fill;
use crate::Result;
use std::collections::{HashMap, VecDeque};
use std::fs::{File, OpenOptions};
use std::io::{BufRead, BufReader, Read, Write};
use std::net::{TcpListener, TcpStream};
use std::os::unix::fs::FileExt;
use std::path::Path;
use std::sync::{Arc, Condvar, Mutex, MutexGuard};
use std::thread;
use std::time::{Duration, Instant};

const SIZE: u64 = 256 << 20;
const LONGEST_POLL: Duration = Duration::from_secs(1);

/// The records that wait for a commit. A number is that of a record.
#[derive(Default)]
struct Log {
    records: Vec<u8>,
    issued: u64,
    /// Up to here the records are written; their mark may not be.
    written: u64,
    durable: u64,
    is_busy: bool,
}

#[derive(Default)]
struct Events {
    last: u64,
    waiting: VecDeque<(u64, Vec<u8>)>,
    answers: HashMap<u64, Vec<u8>>,
}

struct Floor {
    file: File,
    place: Mutex<u64>,
    commits_starts: bool,
    halves: bool,
    log: Mutex<Log>,
    committed: Condvar,
    events: Mutex<Events>,
    posted: Condvar,
}

fn locked<T>(mutex: &Mutex<T>) -> Result<MutexGuard<'_, T>> {
    mutex.lock().map_err(|_| "a thread panicked".into())
}

impl Floor {
    /// Writes behind what was written last, from the front again where the file is full, and flushes.
    fn write(&self, bytes: &[u8]) -> Result<()> {
        let mut place = locked(&self.place)?;
        if *place + bytes.len() as u64 > SIZE {
            *place = 0;
        }
        self.file.write_all_at(bytes, *place)?;
        self.file.sync_data()?;
        *place += bytes.len() as u64;
        Ok(())
    }

    /// Returns once this record is durable. Who finds nobody writing writes the records of all.
    fn commit(&self, kind: u8, id: u64, bytes: &[u8]) -> Result<()> {
        let mut log = locked(&self.log)?;
        log.records.push(kind);
        log.records.extend_from_slice(&id.to_le_bytes());
        log.records.extend_from_slice(&(bytes.len() as u32).to_le_bytes());
        log.records.extend_from_slice(bytes);
        log.issued += 1;
        let own = log.issued;
        while log.durable < own {
            if log.is_busy {
                log = self.committed.wait(log).map_err(|_| "a thread panicked")?;
                continue;
            }
            log.is_busy = true;
            let mut records = std::mem::take(&mut log.records);
            let (last, written) = (log.issued, log.written);
            drop(log);
            if self.halves {
                records.extend_from_slice(&written.to_le_bytes());
                self.write(&records)?;
            } else {
                self.write(&records)?;
                self.write(&last.to_le_bytes())?;
            }
            log = locked(&self.log)?;
            log.written = last;
            log.durable = if self.halves { written } else { last };
            log.is_busy = false;
            self.committed.notify_all();
        }
        Ok(())
    }

    fn accept(&self, body: Vec<u8>) -> Result<u64> {
        let id = {
            let mut events = locked(&self.events)?;
            events.last += 1;
            events.last
        };
        self.commit(1, id, &body)?;
        locked(&self.events)?.waiting.push_back((id, body));
        self.posted.notify_one();
        Ok(id)
    }

    fn next(&self) -> Result<Option<(u64, Vec<u8>)>> {
        let until = Instant::now() + LONGEST_POLL;
        let mut events = locked(&self.events)?;
        loop {
            if let Some((id, event)) = events.waiting.pop_front() {
                drop(events);
                if self.commits_starts {
                    self.commit(2, id, b"")?;
                }
                return Ok(Some((id, event)));
            }
            let left = until.saturating_duration_since(Instant::now());
            if left.is_zero() {
                return Ok(None);
            }
            events = self.posted.wait_timeout(events, left).map_err(|_| "a thread panicked")?.0;
        }
    }

    /// Status line, a header of its own, and the body.
    fn reply(&self, method: &str, path: &str, body: Vec<u8>) -> Result<(&'static str, String, Vec<u8>)> {
        let id = || -> Result<u64> { Ok(path.rsplit('/').next().unwrap_or("").parse()?) };
        Ok(match (method, path) {
            ("POST", "/events") => ("202 Accepted", format!("Id: {}\r\n", self.accept(body)?), Vec::new()),
            ("GET", "/next") => match self.next()? {
                Some((id, event)) => ("200 OK", format!("Id: {id}\r\n"), event),
                None => ("204 No Content", String::new(), Vec::new()),
            },
            ("POST", path) if path.starts_with("/answers/") => {
                self.commit(3, id()?, &body)?;
                locked(&self.events)?.answers.insert(id()?, body);
                ("202 Accepted", String::new(), Vec::new())
            }
            ("GET", path) if path.starts_with("/answers/") => match locked(&self.events)?.answers.get(&id()?) {
                Some(answer) => ("200 OK", String::new(), answer.clone()),
                None => ("404 Not Found", String::new(), Vec::new()),
            },
            ("DELETE", path) if path.starts_with("/answers/") => {
                self.commit(4, id()?, b"")?;
                locked(&self.events)?.answers.remove(&id()?);
                ("204 No Content", String::new(), Vec::new())
            }
            _ => ("404 Not Found", String::new(), Vec::new()),
        })
    }

    /// Answers the requests of one connection, until its client closes it.
    fn attend(&self, stream: TcpStream) -> Result<()> {
        stream.set_nodelay(true)?;
        let mut stream = BufReader::new(stream);
        loop {
            let (mut first, mut length) = (String::new(), 0);
            if stream.read_line(&mut first)? == 0 {
                return Ok(());
            }
            loop {
                let mut line = String::new();
                stream.read_line(&mut line)?;
                match line.split_once(':') {
                    Some((name, value)) if name.eq_ignore_ascii_case("content-length") => length = value.trim().parse()?,
                    Some(_) => {}
                    None => break,
                }
            }
            let mut body = vec![0; length];
            stream.read_exact(&mut body)?;
            let mut words = first.split(' ');
            let (method, path) = (words.next().unwrap_or(""), words.next().unwrap_or(""));
            let (status, header, told) = self.reply(method, path, body)?;
            let mut reply = format!("HTTP/1.1 {status}\r\n{header}").into_bytes();
            if !status.starts_with("204") {
                write!(reply, "Content-Length: {}\r\n", told.len())?;
            }
            reply.extend_from_slice(b"\r\n");
            reply.extend_from_slice(&told);
            stream.get_mut().write_all(&reply)?;
        }
    }
}

/// Serves until it is killed.
pub fn serve(address: &str, folder: &str, commits_starts: bool, halves: bool) -> Result<()> {
    let name = Path::new(folder).join("floor");
    let file = OpenOptions::new().create(true).truncate(true).write(true).open(name)?;
    fill(&file, SIZE)?;
    let floor = Arc::new(Floor {
        file,
        place: Mutex::new(0),
        commits_starts,
        halves,
        log: Mutex::default(),
        committed: Condvar::new(),
        events: Mutex::default(),
        posted: Condvar::new(),
    });
    let listener = TcpListener::bind(address)?;
    println!("serving on {address}");
    for stream in listener.incoming() {
        let (stream, floor) = (stream?, floor.clone());
        thread::spawn(move || {
            if let Err(fault) = floor.attend(stream) {
                eprintln!("floor: {fault}");
            }
        });
    }
    Ok(())
}
