//! The line of a configuration: the counts of its rounds, and the smallest times.

use crate::round::{self, Counts, Times, PACKETS};
use std::time::Duration;

const TIMED_ROUNDS: usize = 9;

pub struct Configuration {
    pub streams: u32,
    pub k: u32,
}

pub fn line(configuration: &Configuration, timed: bool) -> String {
    let (counts, mut times) = run(configuration);
    let told = told_counts(configuration, &counts);
    if !timed {
        return told;
    }
    for _ in 1..TIMED_ROUNDS {
        let (again, more) = run(configuration);
        assert_eq!(again, counts, "two rounds differ");
        times = smallest(times, more);
    }
    told + &told_times(&times)
}

fn run(configuration: &Configuration) -> (Counts, Times) {
    round::run(configuration.streams, configuration.k)
}

/// Each phase by itself: its smallest sum may come from another round.
fn smallest(one: Times, other: Times) -> Times {
    Times {
        send: one.send.min(other.send),
        receive: one.receive.min(other.receive),
        copy: one.copy.min(other.copy),
    }
}

fn told_counts(configuration: &Configuration, counts: &Counts) -> String {
    let Configuration { streams, k } = configuration;
    let [_, fh, cu, cr] = counts.kinds;
    let Counts {
        header, sum, exact, ..
    } = counts;
    format!(
        "streams={streams} k={k} fh={fh} cu={cu} cr={cr} header={header} sum={sum} exact={exact}"
    )
}

fn told_times(times: &Times) -> String {
    let [send, receive, copy] = [times.send, times.receive, times.copy].map(per_packet);
    format!(" send={send} receive={receive} copy={copy}")
}

/// Picoseconds for each packet of a round.
fn per_packet(sum: Duration) -> u128 {
    sum.as_nanos() * 1000 / u128::from(PACKETS)
}
