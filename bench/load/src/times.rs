//! How long calls took: the middle and the slowest of them.
use std::time::Duration;

/// The members of a line of JSON that tell how many calls there were, how many a second, and how long they took.
pub fn told(mut times: Vec<Duration>, taken: Duration) -> String {
    times.sort_unstable();
    let at = |part: f64| match times.len() {
        0 => 0.0,
        count => times[((count as f64 * part) as usize).min(count - 1)].as_secs_f64() * 1e6,
    };
    let rate = times.len() as f64 / taken.as_secs_f64();
    let count = times.len();
    format!(
        "\"n\":{count},\"rate\":{rate:.1},\"median_us\":{:.1},\"p99_us\":{:.1},\"most_us\":{:.1}",
        at(0.5),
        at(0.99),
        at(1.0)
    )
}
