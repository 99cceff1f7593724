//! Finished lists by chance.

use crate::claims::changed_meaning;
use crate::mutate::made_up_list;
use crate::scripts::{script_words, Shape};
use crate::templates::{any_dividing_template, any_template, lay_out};
use crate::Prng;

/// A list that no generator wrote, or that of a script, which `generate` gives,
/// unless it is too long: of any shape, with conditions that hold by construction,
/// or one of these with a change.
pub fn any_list(random: &mut Prng, generate: impl Fn(&[i32]) -> Option<Vec<i32>>) -> Vec<i32> {
    loop {
        let table = match random.below(4) {
            0 => return made_up_list(random, 0),
            1 => any_small_script(random),
            2 => sound_table(random),
            _ => {
                let table = sound_table(random);
                changed_meaning(&table, random)
            }
        };
        if let Some(list) = generate(&table) {
            return list;
        }
    }
}

fn any_small_script(random: &mut Prng) -> Vec<i32> {
    let shape = Shape {
        rows: 4 + random.below(60),
        ..Shape::any(random)
    };
    script_words(random, shape)
}

fn sound_table(random: &mut Prng) -> Vec<i32> {
    let making = random.pick(&[any_template, any_dividing_template]);
    let template = making(random);
    lay_out(&template.script, random)
}
