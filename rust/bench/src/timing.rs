//! Times the contestants of a case in turn and prints a row of the table.

use crate::clock::{processor_time, Nanoseconds};

/// A round calls a contestant so often that it lasts about so long.
const ROUND: Nanoseconds = 4e6;

/// The four that do the same work.
pub struct Contestants<'a> {
    pub proved: &'a mut dyn FnMut(),
    pub peer: &'a mut dyn FnMut(),
    /// The second implementation.
    pub second: &'a mut dyn FnMut(),
    /// What any of them must do at least.
    pub floor: &'a mut dyn FnMut(),
}

/// Prints rows of times, each the median of so many rounds.
pub struct Stopwatch {
    pub rounds: usize,
}

impl Stopwatch {
    pub fn print_head(&self) {
        println!(
            "Microseconds of processor time; medians of {} rounds.",
            self.rounds
        );
        println!();
        println!("| case | proved | peer | proved / peer | floor | second | proved / second |");
        println!("|---|--:|--:|--:|--:|--:|--:|");
    }

    fn print_row(&self, label: &str, contestants: Contestants, shown: impl Fn(f64) -> String) {
        let Contestants {
            proved,
            peer,
            second,
            floor,
        } = contestants;
        let [proved, peer, second, floor] = self.medians([proved, peer, second, floor]);
        let (by_peer, by_second) = (proved / peer, proved / second);
        println!(
            "| {label} | {} | {} | {by_peer:>5.2} | {} | {} | {by_second:>5.2} |",
            shown(proved),
            shown(peer),
            shown(floor),
            shown(second),
        );
    }

    pub fn print_times(&self, case: &str, contestants: Contestants) {
        self.print_row(&format!("{case:<56}"), contestants, microseconds);
    }

    pub fn print_head_of_rates(&self, what: &str) {
        println!();
        println!("{what}: megabytes per second; the ratios are of times, as above.");
        println!();
        println!(
            "| case | bytes | proved | peer | proved / peer | floor | second | proved / second |"
        );
        println!("|---|--:|--:|--:|--:|--:|--:|--:|");
    }

    /// A row for contestants that each write, or read, so many bytes.
    pub fn print_rates(&self, case: &str, bytes: usize, contestants: Contestants) {
        let label = format!("{case:<56} | {bytes:>7}");
        self.print_row(&label, contestants, |time| {
            megabytes_per_second(bytes, time)
        });
    }

    pub fn print_head_of_steps(&self) {
        println!();
        println!("Runs: nanoseconds a step; the ratios are of times, as above.");
        println!();
        println!(
            "| case | steps | proved | peer | proved / peer | floor | second | proved / second |"
        );
        println!("|---|--:|--:|--:|--:|--:|--:|--:|");
    }

    /// A row for contestants that each do so many steps.
    pub fn print_steps(&self, case: &str, steps: u64, contestants: Contestants) {
        let label = format!("{case:<56} | {steps:>7}");
        self.print_row(&label, contestants, |time| {
            format!("{:>9.2}", time / steps as f64)
        });
    }

    /// The time of one call of each.
    fn medians<const N: usize>(&self, mut works: [&mut dyn FnMut(); N]) -> [Nanoseconds; N] {
        let calls = works.each_mut().map(|work| calls_in_a_round(*work));
        let mut times = [const { Vec::new() }; N];
        for _ in 0..self.rounds {
            for ((work, calls), times) in works.iter_mut().zip(calls).zip(&mut times) {
                times.push(timed(calls, *work));
            }
        }
        times.map(median)
    }
}

fn microseconds(time: Nanoseconds) -> String {
    format!("{:>9.2}", time / 1e3)
}

fn megabytes_per_second(bytes: usize, time: Nanoseconds) -> String {
    format!("{:>9.1}", bytes as f64 * 1e3 / time)
}

/// The time of one call.
fn timed(calls: u32, work: &mut dyn FnMut()) -> Nanoseconds {
    let begun = processor_time();
    for _ in 0..calls {
        work();
    }
    (processor_time() - begun) / f64::from(calls)
}

fn calls_in_a_round(work: &mut dyn FnMut()) -> u32 {
    let one = timed(1, work).min(timed(3, work)).max(1.0);
    ((ROUND / one) as u32).max(1)
}

fn median(mut times: Vec<Nanoseconds>) -> Nanoseconds {
    times.sort_by(f64::total_cmp);
    times[times.len() / 2]
}
