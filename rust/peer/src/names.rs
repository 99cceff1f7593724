//! Numbers 8 and 9, for tables with a frozen name or a mark.

use crate::stack::Storage;
use crate::{is_frozen, Row, Verdict, MOST_ROWS};

/// The place of a row: the innermost loop whose body it stands in, and whether
/// it stands in code.
type Place = u16;

const CODE: Place = 0x8000;
const NO_LOOP: Place = 0x7fff;

/// From the last row down, so that a row comes before its parts.
#[inline(never)]
pub fn check_names(rows: &[Row]) -> Result<(), Verdict> {
    let assigns_frozen = |&[kind, variable, ..]: &Row| kind == 33 && is_frozen(variable);
    if let Some(row) = rows.iter().position(assigns_frozen) {
        return Err(Verdict { number: 8, row });
    }
    let mut places = Storage::<_, MOST_ROWS>::new();
    let places = places.filled(rows.len(), NO_LOOP);
    let mut lowest = None;
    for (row, &[kind, first, second, third]) in rows.iter().enumerate().rev() {
        let here = places[row];
        let [first_place, second_place, third_place] =
            [first, second, third].map(|link| link as usize);
        match kind {
            2 if here & CODE != 0 && is_frozen(first) => lowest = Some(row),
            9 if !is_in_body_of(first, here, places) => lowest = Some(row),
            8 | 22 | 38 => places[first_place] = here,
            3..=7 | 18..=21 | 23..=25 | 34 | 37 => {
                places[first_place] = here;
                places[second_place] = here;
            }
            10 | 48 => {
                places[first_place] = here;
                places[second_place] = here;
                places[third_place] = here;
            }
            33 => places[second_place] = here | CODE,
            35 => {
                places[first_place] = here | CODE;
                places[second_place] = here;
                places[third_place] = here;
            }
            36 => {
                places[first_place] = here | CODE;
                places[second_place] = here;
                places[third_place] = row as Place;
            }
            _ => {}
        }
    }
    match lowest {
        None => Ok(()),
        Some(row) => Err(Verdict { number: 9, row }),
    }
}

/// Whether a mark of this row may stand at this place. Outer loops have higher
/// rows; code is beyond all rows.
fn is_in_body_of(marked: i32, mut place: Place, places: &[Place]) -> bool {
    while i32::from(place) < marked {
        place = places[usize::from(place)];
    }
    i32::from(place) == marked
}
