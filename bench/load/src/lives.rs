//! Whole lives of events: callers post them, runtimes poll, answer and collect the record.
use crate::servers::{connect, Server};
use crate::{number_of, payload, times, Result};
use std::collections::HashSet;
use std::net::{Shutdown, TcpStream};
use std::sync::atomic::{AtomicI64, AtomicU64, AtomicU8, Ordering};
use std::sync::{Barrier, Mutex};
use std::thread;
use std::time::{Duration, Instant};

pub struct Plan {
    pub callers: usize,
    pub runtimes: usize,
    pub seconds: f64,
    /// How many events there are at once at most.
    pub most: i64,
    pub reads_the_oldest: bool,
}

const WARMING: u8 = 0;
const MEASURED: u8 = 1;
const OVER: u8 = 2;
const TO_WARM: Duration = Duration::from_secs(1);
/// How long a runtime may still take once it is over. One whose poll is parked takes longer, and is cut off.
const TO_END: Duration = Duration::from_secs(2);

/// What the threads of a run share.
struct Run {
    plan: Plan,
    start: Barrier,
    phase: AtomicU8,
    /// How many events were posted, or are about to be, and have not ended.
    out: AtomicI64,
    numbers: AtomicU64,
    handles: Mutex<Vec<TcpStream>>,
}

impl Run {
    fn is_over(&self) -> bool {
        self.phase.load(Ordering::SeqCst) == OVER
    }

    fn is_measured(&self) -> bool {
        self.phase.load(Ordering::SeqCst) == MEASURED
    }

    fn call(&self, caller: Result<Box<dyn Server>>) -> Result<()> {
        self.start.wait();
        let mut caller = caller?;
        while !self.is_over() {
            if self.out.fetch_add(1, Ordering::SeqCst) >= self.plan.most {
                self.out.fetch_sub(1, Ordering::SeqCst);
                thread::sleep(Duration::from_micros(50));
                continue;
            }
            caller.accept(&payload(self.numbers.fetch_add(1, Ordering::Relaxed)))?;
        }
        Ok(())
    }

    /// One event from the poll to its collected record: its number, or none where the server had no event.
    fn live(&self, runtime: &mut dyn Server) -> Result<Option<u64>> {
        let Some(given) = runtime.next()? else { return Ok(None) };
        let number = number_of(&given.payload).ok_or("an event came back damaged")?;
        if self.plan.reads_the_oldest {
            runtime.finish_and_collect_oldest(&given, &payload(number))?;
        } else {
            runtime.finish(&given, b"{}")?;
        }
        Ok(Some(number))
    }

    /// The times of the lives of one runtime that began and ended while it was measured, and the numbers of all.
    fn run(&self, runtime: Result<Box<dyn Server>>) -> Result<(Vec<Duration>, Vec<u64>)> {
        let handles = runtime.as_ref().map_or(Ok(Vec::new()), |runtime| runtime.handles());
        self.start.wait();
        let mut runtime = runtime?;
        self.handles.lock().map_err(|_| "a thread panicked")?.extend(handles?);
        let (mut times, mut seen) = (Vec::new(), Vec::new());
        while !self.is_over() {
            let (began, was_measured) = (Instant::now(), self.is_measured());
            match self.live(runtime.as_mut()) {
                Ok(Some(number)) => {
                    self.out.fetch_sub(1, Ordering::SeqCst);
                    seen.push(number);
                    if was_measured && self.is_measured() {
                        times.push(began.elapsed());
                    }
                }
                Ok(None) => {}
                Err(_) if self.is_over() => break,
                Err(fault) => return Err(fault),
            }
        }
        Ok((times, seen))
    }

    /// Lets it run for its seconds: how long that was.
    fn keep_time(&self) -> Duration {
        self.start.wait();
        thread::sleep(TO_WARM);
        self.phase.store(MEASURED, Ordering::SeqCst);
        let started = Instant::now();
        thread::sleep(Duration::from_secs_f64(self.plan.seconds));
        self.phase.store(OVER, Ordering::SeqCst);
        started.elapsed()
    }
}

pub fn measure(server: &str, address: &str, plan: Plan) -> Result<()> {
    let run = Run {
        start: Barrier::new(plan.callers + plan.runtimes + 1),
        plan,
        phase: AtomicU8::new(WARMING),
        out: AtomicI64::new(0),
        numbers: AtomicU64::new(1),
        handles: Mutex::new(Vec::new()),
    };
    let run = &run;
    let (mut times, mut seen, mut twice) = (Vec::new(), HashSet::new(), 0);
    let mut taken = Duration::ZERO;
    thread::scope(|scope| -> Result<()> {
        let callers: Vec<_> =
            (0..run.plan.callers).map(|_| scope.spawn(move || run.call(connect(server, address, None)))).collect();
        let runtimes: Vec<_> = (1..=run.plan.runtimes as u16)
            .map(|number| scope.spawn(move || run.run(connect(server, address, Some(number)))))
            .collect();
        taken = run.keep_time();
        for caller in callers {
            caller.join().map_err(|_| "a thread panicked")??;
        }
        let until = Instant::now() + TO_END;
        while Instant::now() < until && runtimes.iter().any(|runtime| !runtime.is_finished()) {
            thread::sleep(Duration::from_millis(10));
        }
        for handle in run.handles.lock().map_err(|_| "a thread panicked")?.iter() {
            // One that is closed already needs no shutting.
            let _ = handle.shutdown(Shutdown::Both);
        }
        for runtime in runtimes {
            let (of_one, numbers) = runtime.join().map_err(|_| "a thread panicked")??;
            times.extend(of_one);
            twice += numbers.into_iter().filter(|number| !seen.insert(*number)).count();
        }
        Ok(())
    })?;
    let how = if run.plan.reads_the_oldest { "oldest" } else { "own" };
    let left = run.out.load(Ordering::SeqCst);
    let told = times::told(times, taken);
    println!("{{\"what\":\"lives\",\"record\":\"{how}\",\"given_twice\":{twice},\"left\":{left},{told}}}");
    Ok(())
}
