//! The examples mean what they say: their conditions are true in many states, and
//! their runs keep the promise. `faulty` has those that are wrong.

mod files;
mod tried;

use fuzz::{seed_from_environment, Prng};
use reference::{End, State};
use tried::{example, left_sides_true, sound_examples};

#[test]
fn every_condition_of_a_sound_example_is_true() {
    let mut random = Prng::new(seed_from_environment());
    for example in sound_examples() {
        let tried = left_sides_true(&example, &mut random);
        let often = tried.iter().all(|times| *times > 100);
        assert!(often, "{}: {tried:?}", example.name);
    }
}

#[test]
fn runs_of_a_sound_example_keep_what_it_promises() {
    let mut random = Prng::new(seed_from_environment());
    for example in sound_examples() {
        let name = &example.name;
        let runs = example.runs(&mut random);
        for (start, trial) in &runs {
            let ended = (trial.run.end, &trial.broken, trial.conditions_true);
            assert_eq!(
                ended,
                (End::Done, &None, Some(true)),
                "{name} from {start:?}"
            );
        }
        println!("{name}: {} runs", runs.len());
        assert!(runs.len() > 200, "{name}: {} runs", runs.len());
    }
}

/// The passes of a loop may be one more than its variant.
#[test]
fn a_last_pass_at_zero_is_made() {
    let trial = example("last-pass-at-zero").run(&State::default());
    let arrival = trial.unwrap().run.arrivals[0];
    assert_eq!((arrival.variant, arrival.bodies_begun), (Some(0), 1));
}
