//! Side by side: every competitor runs once in each round, so that what the machine does meets them all.

use std::time::Instant;

/// Nanoseconds: the median and the least of the rounds.
#[derive(Clone, Copy)]
pub struct Time {
    pub median: f64,
    pub least: f64,
}

pub fn time(rounds: usize, jobs: &mut [&mut dyn FnMut()]) -> Vec<Time> {
    let mut taken = vec![Vec::new(); jobs.len()];
    for round in 0..=rounds {
        for (job, taken) in jobs.iter_mut().zip(&mut taken) {
            let start = Instant::now();
            job();
            let time = start.elapsed().as_nanos() as f64;
            // The first round warms up.
            if round > 0 {
                taken.push(time);
            }
        }
    }
    taken.iter_mut().map(|taken| summary(taken)).collect()
}

pub fn summary(taken: &mut [f64]) -> Time {
    taken.sort_by(f64::total_cmp);
    Time { median: taken[taken.len() / 2], least: taken[0] }
}

/// A line of the output: what, its figures for each of `count` things, and the ratio to another.
pub fn line(what: &str, time: Time, count: usize, to: Option<Time>) {
    let (median, least) = (time.median / count as f64, time.least / count as f64);
    let ratio = to
        .map_or(String::new(), |to| format!("{:9.2}{:9.2}", time.median / to.median, time.least / to.least));
    println!("  {what:<34}{median:9.2}{least:9.2}{ratio}");
}
