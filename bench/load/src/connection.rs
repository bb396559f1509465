//! One connection of HTTP/1.1, with one request at a time.
use crate::Result;
use std::io::{BufRead, BufReader, Read, Write};
use std::net::TcpStream;
use std::time::Duration;

/// How long a client waits for a reply before it gives up.
const PATIENCE: Duration = Duration::from_secs(15);

pub struct Reply {
    pub status: u16,
    pub headers: Vec<(String, String)>,
    pub body: Vec<u8>,
}

impl Reply {
    pub fn header(&self, name: &str) -> Option<&str> {
        self.headers.iter().find(|(has, _)| has.eq_ignore_ascii_case(name)).map(|(_, value)| value.as_str())
    }
}

pub struct Connection {
    stream: BufReader<TcpStream>,
    request: Vec<u8>,
}

impl Connection {
    pub fn open(address: &str) -> Result<Self> {
        let stream = TcpStream::connect(address)?;
        stream.set_nodelay(true)?;
        stream.set_read_timeout(Some(PATIENCE))?;
        stream.set_write_timeout(Some(PATIENCE))?;
        Ok(Connection { stream: BufReader::new(stream), request: Vec::new() })
    }

    /// A second handle of the socket, by which another thread can shut it.
    pub fn handle(&self) -> Result<TcpStream> {
        Ok(self.stream.get_ref().try_clone()?)
    }

    /// One request and its reply. `line` is the method and the target; `headers` has a line end behind each.
    pub fn ask(&mut self, line: &str, headers: &str, body: &[u8]) -> Result<Reply> {
        self.request.clear();
        write!(self.request, "{line} HTTP/1.1\r\nHost: 127.0.0.1\r\n{headers}")?;
        if line.starts_with("POST") {
            write!(self.request, "Content-Type: application/json\r\nContent-Length: {}\r\n", body.len())?;
        }
        self.request.extend_from_slice(b"\r\n");
        self.request.extend_from_slice(body);
        self.stream.get_mut().write_all(&self.request)?;
        self.read_reply()
    }

    /// The same, where only a 2xx will do.
    pub fn ask_well(&mut self, line: &str, headers: &str, body: &[u8]) -> Result<Reply> {
        let reply = self.ask(line, headers, body)?;
        match reply.status {
            200..=299 => Ok(reply),
            status => Err(format!("{line}: {status} {}", String::from_utf8_lossy(&reply.body)).into()),
        }
    }

    fn read_reply(&mut self) -> Result<Reply> {
        let status = self.read_line()?.split(' ').nth(1).ok_or("a reply without a status")?.parse()?;
        let mut headers = Vec::new();
        loop {
            let line = self.read_line()?;
            if line.is_empty() {
                break;
            }
            let (name, value) = line.split_once(':').ok_or("a header without a colon")?;
            headers.push((name.to_string(), value.trim().to_string()));
        }
        let mut reply = Reply { status, headers, body: Vec::new() };
        if status != 204 {
            let length = reply.header("content-length").ok_or("a reply without a length")?.parse()?;
            reply.body.resize(length, 0);
            self.stream.read_exact(&mut reply.body)?;
        }
        Ok(reply)
    }

    fn read_line(&mut self) -> Result<String> {
        let mut line = String::new();
        if self.stream.read_line(&mut line)? == 0 {
            return Err("the server closed the connection".into());
        }
        Ok(line.trim_end_matches(['\r', '\n']).to_string())
    }
}
