//! Records that one collector reads by pages of the operator's port and collects by lists.
use crate::connection::Connection;
use crate::{payload, Result};
use std::time::{Duration, Instant};

const INVOKE: &str = "POST /2015-03-31/functions/my-function/invocations";
const RUNTIME: &str = "/2018-06-01/runtime/invocation";

/// So many events are accepted and answered, one after the other.
fn fill(caller: &mut Connection, runtime: &mut Connection, events: u64) -> Result<()> {
    for number in 0..events {
        caller.ask_well(INVOKE, "X-Amz-Invocation-Type: Event\r\n", &payload(number))?;
        let given = runtime.ask_well(&format!("GET {RUNTIME}/next"), "", b"")?;
        let id = given.header("Lambda-Runtime-Aws-Request-Id").ok_or("an event without an id")?;
        runtime.ask_well(&format!("POST {RUNTIME}/{id}/response"), "", b"{}")?;
    }
    Ok(())
}

/// The ids of the records of a page, one a line.
fn ids_of(page: Vec<u8>) -> Result<String> {
    let mut ids = String::new();
    for record in String::from_utf8(page)?.lines() {
        let (_, behind) = record.split_once("\"requestId\":\"").ok_or("a record without an id")?;
        ids.push_str(behind.get(..36).ok_or("a record with a short id")?);
        ids.push('\n');
    }
    Ok(ids)
}

/// Collects all records: how many there were, and in how many pages.
fn collect(operator: &mut Connection) -> Result<(usize, usize)> {
    let (mut records, mut pages) = (0, 0);
    loop {
        let ids = ids_of(operator.ask_well("GET /records/success?limit=1000", "", b"")?.body)?;
        if ids.is_empty() {
            return Ok((records, pages));
        }
        let told = operator.ask_well("POST /records/collect", "lambda-broker-act: 1\r\n", ids.as_bytes())?;
        let told = String::from_utf8(told.body)?;
        if told.lines().count() != ids.lines().count() || !told.lines().all(|line| line.ends_with(" collected")) {
            return Err("a record was not collected".into());
        }
        records += ids.lines().count();
        pages += 1;
    }
}

pub fn measure(address: &str, admin: &str, events: u64, rounds: u64) -> Result<()> {
    let (host, port) = address.rsplit_once(':').ok_or("an address is HOST:PORT")?;
    let mut caller = Connection::open(address)?;
    let mut runtime = Connection::open(&format!("{host}:{}", port.parse::<u16>()? + 1))?;
    let mut operator = Connection::open(admin)?;
    let (mut taken, mut records, mut pages) = (Duration::ZERO, 0, 0);
    for _ in 0..rounds {
        fill(&mut caller, &mut runtime, events)?;
        let began = Instant::now();
        let (more, turned) = collect(&mut operator)?;
        taken += began.elapsed();
        records += more;
        pages += turned;
    }
    let rate = records as f64 / taken.as_secs_f64();
    println!("{{\"what\":\"collects\",\"n\":{records},\"pages\":{pages},\"rate\":{rate:.1}}}");
    Ok(())
}
