//! How many flushes of 512 bytes a disk makes a second, one after another, within a file whose blocks are all written.
use crate::{times, Result};
use std::fs::{self, OpenOptions};
use std::os::unix::fs::FileExt;
use std::path::Path;
use std::time::{Duration, Instant};

const SIZE: u64 = 64 << 20;

/// Fills a file with zeros, so that later writes change no block of the file system's own.
pub fn fill(file: &fs::File, size: u64) -> Result<()> {
    let zeros = vec![0; 1 << 20];
    for at in (0..size).step_by(zeros.len()) {
        file.write_all_at(&zeros, at)?;
    }
    Ok(file.sync_all()?)
}

pub fn measure(folder: &str, seconds: f64) -> Result<()> {
    let name = Path::new(folder).join("flushes");
    let file = OpenOptions::new().create(true).truncate(true).write(true).open(&name)?;
    fill(&file, SIZE)?;
    let (mut times, started) = (Vec::new(), Instant::now());
    let mut places = (0..SIZE).step_by(512).cycle();
    while started.elapsed() < Duration::from_secs_f64(seconds) {
        let began = Instant::now();
        file.write_all_at(&[b'x'; 512], places.next().unwrap_or(0))?;
        file.sync_data()?;
        times.push(began.elapsed());
    }
    let taken = started.elapsed();
    fs::remove_file(name)?;
    println!("{{\"what\":\"flushes\",{}}}", times::told(times, taken));
    Ok(())
}
