//! Timing contenders against each other. Each round times every one in turn,
//! so that what slows the machine for a while slows all of them. A line gives
//! the median of the rounds' ratios to the first contender, its quartiles, and
//! the median time of one call.
//!
//! Within Rust 1.63 and std alone: it is also built by Debian's rustc.

use std::time::Instant;

/// How often each contender is timed, and over how many calls at a time.
const ROUNDS: usize = 2001;
const CALLS: usize = 100;

/// Nanoseconds of one call, over many.
pub fn time(mut call: impl FnMut()) -> f64 {
    let start = Instant::now();
    for _ in 0..CALLS {
        call();
    }
    start.elapsed().as_nanos() as f64 / CALLS as f64
}

/// The value a part of the way up the sorted list.
fn part(list: &mut [f64], quarters: usize) -> f64 {
    list.sort_by(|x, y| x.partial_cmp(y).expect("times are numbers"));
    list[(list.len() - 1) * quarters / 4]
}

/// Runs the race of these contenders, each timed by its place, and prints it.
pub fn race(title: &str, names: &[&str], mut timed: impl FnMut(usize) -> f64) {
    let mut times = vec![Vec::new(); names.len()];
    let mut ratios = vec![Vec::new(); names.len()];
    for _ in 0..ROUNDS {
        let round: Vec<f64> = (0..names.len()).map(&mut timed).collect();
        for (at, one) in round.iter().enumerate() {
            times[at].push(*one);
            ratios[at].push(one / round[0]);
        }
    }
    println!("{}, {} rounds of {} calls", title, ROUNDS, CALLS);
    for (at, name) in names.iter().enumerate() {
        let (low, middle, high) =
            (part(&mut ratios[at], 1), part(&mut ratios[at], 2), part(&mut ratios[at], 3));
        println!(
            "  {:<24} {:.2} times ({:.2} to {:.2}), {:.0} ns a call",
            name,
            middle,
            low,
            high,
            part(&mut times[at], 2)
        );
    }
}
