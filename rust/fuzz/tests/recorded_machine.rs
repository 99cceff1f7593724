//! The answers of the proved stepping machine on 105,000 inputs, two calls each, as recorded
//! digests: number, row, steps and height, and every word of the stack and every value.
//!
//! As in `recorded.rs`, the inputs are in the module `frozen`, and no change that keeps
//! the contracts may change a constant. All were recorded with P11: made with the
//! yardstick, and the library gives the same.

mod digest;
mod frozen;

use digest::{compare, Digest};
use frozen::running::{any_script, at_edges, begun, counting_script};
use frozen::running::{gone_on, operation, Lent};
use frozen::Chance;
use leqwarti::entries::{self, RunAnswer};

/// Who makes a call.
#[derive(Clone, Copy)]
enum By {
    Library,
    Yardstick,
}

fn call(by: By, lent: &mut Lent, limit: u64) -> RunAnswer {
    let Lent {
        table,
        stack,
        height,
        variables,
        marks,
    } = lent;
    match by {
        By::Library => {
            let mut lent = entries::Lent {
                stack,
                variables,
                marks,
            };
            match *height {
                None => entries::run(table, &mut lent, limit),
                Some(height) => entries::go_on(table, &mut lent, height, limit),
            }
        }
        By::Yardstick => {
            let answer = match *height {
                None => peer::run(table, stack, variables, marks, limit),
                Some(height) => peer::go_on(table, stack, height, variables, marks, limit),
            };
            RunAnswer {
                number: answer.number,
                row: answer.row,
                steps: answer.steps,
                height: answer.height,
            }
        }
    }
}

/// A call with a limit by chance, and one with just the steps that it took, or one less.
fn digest_calls(by: By, lent: &Lent, chance: &mut Chance, digest: &mut Digest) {
    let few = chance.below(20) as u64;
    let limit = chance.any_of(&[few, few, 1_000, 1_000, 1_000, 200]);
    let mut first = lent.clone();
    let answer = call(by, &mut first, limit);
    digest.add_run(answer, &first.stack, &first.variables, &first.marks);
    let less = chance.below(2) as u64;
    let mut second = lent.clone();
    let answer = call(by, &mut second, answer.steps.saturating_sub(less));
    digest.add_run(answer, &second.stack, &second.variables, &second.marks);
}

/// The digest of both is the one recorded.
fn compare_both(group: u64, inputs: u64, recorded: u64, making: fn(&mut Chance) -> Lent) {
    for by in [By::Yardstick, By::Library] {
        compare(group, inputs, recorded, |chance, digest| {
            let lent = making(chance);
            digest_calls(by, &lent, chance, digest);
        });
    }
}

#[test]
fn scripts_that_count() {
    compare_both(71, 40_000, 0x1149_898B_4716_5014, |chance| {
        let table = counting_script(chance);
        begun(table, chance)
    });
}

#[test]
fn scripts_of_any_kind() {
    compare_both(72, 25_000, 0xB037_80E3_180B_695E, |chance| {
        let table = any_script(chance);
        begun(table, chance)
    });
}

#[test]
fn operations_at_edges() {
    compare_both(73, 20_000, 0xF1FD_13FC_3BF6_EFF5, |chance| {
        let table = operation(chance);
        let lent = begun(table, chance);
        at_edges(lent, chance)
    });
}

#[test]
fn words_gone_on_with() {
    compare_both(74, 20_000, 0x3852_E19F_B0AE_F22F, |chance| {
        let table = match chance.below(4) {
            0 => any_script(chance),
            _ => counting_script(chance),
        };
        let lent = begun(table, chance);
        gone_on(lent, chance)
    });
}
