//! What a client asks of a server, and how the broker and the floor are asked for it.
use crate::connection::Connection;
use crate::Result;
use std::net::TcpStream;

/// An event that a runtime was given.
pub struct Given {
    pub id: String,
    pub payload: Vec<u8>,
}

pub trait Server: Send {
    /// Posts an event, which is durable when this returns.
    fn accept(&mut self, payload: &[u8]) -> Result<()>;

    /// Polls for an event. None where the server says that there is none.
    fn next(&mut self) -> Result<Option<Given>>;

    /// Answers the event, and collects its own record.
    fn finish(&mut self, given: &Given, answer: &[u8]) -> Result<()>;

    /// Answers the event, and reads and collects the record that waits for longest. Others do so at the same time.
    fn finish_and_collect_oldest(&mut self, given: &Given, answer: &[u8]) -> Result<()>;

    /// Handles of its sockets, by which another thread can end a poll.
    fn handles(&self) -> Result<Vec<TcpStream>>;
}

/// A caller, where `environment` is None, or the runtime of an environment, which are numbered from 1 on.
pub fn connect(server: &str, address: &str, environment: Option<u16>) -> Result<Box<dyn Server>> {
    Ok(match server {
        "broker" => Box::new(Broker::connect(address, environment)?),
        "floor" => Box::new(Floor { connection: Connection::open(address)? }),
        _ => return Err(format!("there is no server {server}").into()),
    })
}

const INVOKE: &str = "POST /2015-03-31/functions/my-function/invocations";
const RUNTIME: &str = "/2018-06-01/runtime/invocation";

struct Broker {
    caller: Connection,
    runtime: Option<Connection>,
}

impl Broker {
    fn connect(address: &str, environment: Option<u16>) -> Result<Self> {
        let (host, port) = address.rsplit_once(':').ok_or("an address is HOST:PORT")?;
        let port: u16 = port.parse()?;
        let runtime = match environment {
            Some(number) => Some(Connection::open(&format!("{host}:{}", port + number))?),
            None => None,
        };
        Ok(Broker { caller: Connection::open(address)?, runtime })
    }

    fn runtime(&mut self) -> Result<&mut Connection> {
        self.runtime.as_mut().ok_or("a caller is no runtime".into())
    }

    fn answer(&mut self, given: &Given, answer: &[u8]) -> Result<()> {
        self.runtime()?.ask_well(&format!("POST {RUNTIME}/{}/response", given.id), "", answer)?;
        Ok(())
    }
}

impl Server for Broker {
    fn accept(&mut self, payload: &[u8]) -> Result<()> {
        self.caller.ask_well(INVOKE, "X-Amz-Invocation-Type: Event\r\n", payload)?;
        Ok(())
    }

    fn next(&mut self) -> Result<Option<Given>> {
        let reply = self.runtime()?.ask_well(&format!("GET {RUNTIME}/next"), "", b"")?;
        let id = reply.header("Lambda-Runtime-Aws-Request-Id").ok_or("an event without an id")?.to_string();
        Ok(Some(Given { id, payload: reply.body }))
    }

    fn finish(&mut self, given: &Given, answer: &[u8]) -> Result<()> {
        self.answer(given, answer)?;
        self.caller.ask_well(&format!("DELETE /broker/destinations/{}", given.id), "", b"")?;
        Ok(())
    }

    fn finish_and_collect_oldest(&mut self, given: &Given, answer: &[u8]) -> Result<()> {
        self.answer(given, answer)?;
        loop {
            let record = self.caller.ask_well("GET /broker/destinations/success", "", b"")?;
            if record.status == 204 {
                continue;
            }
            let text = String::from_utf8(record.body)?;
            let (_, behind) = text.split_once("\"requestId\":\"").ok_or("a record without an id")?;
            let line = format!("DELETE /broker/destinations/{}", behind.get(..36).ok_or("a record with a short id")?);
            match self.caller.ask(&line, "", b"")?.status {
                200..=299 => return Ok(()),
                // Somebody else has collected it.
                404 => {}
                status => return Err(format!("{line}: {status}").into()),
            }
        }
    }

    fn handles(&self) -> Result<Vec<TcpStream>> {
        [Some(&self.caller), self.runtime.as_ref()].into_iter().flatten().map(Connection::handle).collect()
    }
}

struct Floor {
    connection: Connection,
}

impl Server for Floor {
    fn accept(&mut self, payload: &[u8]) -> Result<()> {
        self.connection.ask_well("POST /events", "", payload)?;
        Ok(())
    }

    fn next(&mut self) -> Result<Option<Given>> {
        let reply = self.connection.ask_well("GET /next", "", b"")?;
        if reply.status == 204 {
            return Ok(None);
        }
        let id = reply.header("Id").ok_or("an event without an id")?.to_string();
        Ok(Some(Given { id, payload: reply.body }))
    }

    /// The floor keeps no record of an event whose answer nobody is to read.
    fn finish(&mut self, given: &Given, answer: &[u8]) -> Result<()> {
        self.connection.ask_well(&format!("POST /answers/{}", given.id), "", answer)?;
        Ok(())
    }

    fn finish_and_collect_oldest(&mut self, given: &Given, answer: &[u8]) -> Result<()> {
        self.finish(given, answer)?;
        self.connection.ask_well(&format!("GET /answers/{}", given.id), "", b"")?;
        self.connection.ask_well(&format!("DELETE /answers/{}", given.id), "", b"")?;
        Ok(())
    }

    fn handles(&self) -> Result<Vec<TcpStream>> {
        Ok(vec![self.connection.handle()?])
    }
}
