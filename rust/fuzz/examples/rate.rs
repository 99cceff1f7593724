//! Compares the reference with itself: `rate CASES` prints cases per second.

use fuzz::{compare, seed_from_environment, Input, Reference};

fn main() {
    let cases = std::env::args()
        .nth(1)
        .map_or(10_000, |text| text.parse().expect("a number"));
    let seed = seed_from_environment();
    let begun = std::time::Instant::now();
    let result = compare(&mut Reference, Input::any, seed, cases);
    let rate = cases as f64 / begun.elapsed().as_secs_f64();
    println!("{cases} cases, {rate:.0} per second, {result:?}");
}
