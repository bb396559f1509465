//! Accepts over some connections at once, each with one request in flight.
use crate::servers::connect;
use crate::{payload, times, Result};
use std::sync::atomic::{AtomicI64, Ordering};
use std::sync::Barrier;
use std::thread;
use std::time::{Duration, Instant};

/// Each connection makes one accept before it is measured. Then all of them make so many together.
pub fn measure(server: &str, address: &str, connections: usize, count: i64) -> Result<()> {
    let start = Barrier::new(connections + 1);
    let left = AtomicI64::new(count);
    let one = |number: usize| -> Result<(Vec<Duration>, Instant)> {
        let mut events = (number as u64) << 40..;
        let warmed = connect(server, address, None).and_then(|mut caller| {
            caller.accept(&payload(events.next().unwrap_or(0)))?;
            Ok(caller)
        });
        start.wait();
        let mut caller = warmed?;
        let mut times = Vec::new();
        while left.fetch_sub(1, Ordering::Relaxed) > 0 {
            let event = payload(events.next().unwrap_or(0));
            let asked = Instant::now();
            caller.accept(&event)?;
            times.push(asked.elapsed());
        }
        Ok((times, Instant::now()))
    };
    let (mut times, mut taken) = (Vec::new(), Duration::ZERO);
    thread::scope(|scope| -> Result<()> {
        let running: Vec<_> = (0..connections).map(|number| scope.spawn(move || one(number))).collect();
        start.wait();
        let started = Instant::now();
        for thread in running {
            let (of_one, ended) = thread.join().map_err(|_| "a thread panicked")??;
            times.extend(of_one);
            taken = taken.max(ended - started);
        }
        Ok(())
    })?;
    println!("{{\"what\":\"accepts\",\"connections\":{connections},{}}}", times::told(times, taken));
    Ok(())
}
