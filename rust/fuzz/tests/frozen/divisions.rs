//! Tables that divide in code, and lists with the condition guard (request P5).

use super::formulas::variables_of_last_line;
use super::tables::{script, Script};
use super::Chance;

/// Whether an assigned expression or a guard has a div or mod in it. (Of a table
/// that is refused it may say anything.)
pub fn table_divides_in_code(words: &[i32]) -> bool {
    let (rows, _) = words.as_chunks();
    let mut divides = Vec::new();
    for &[kind, first, second, third] in rows {
        let part = |link: i32| divides.get(link as usize) == Some(&true);
        let in_code = match kind {
            33 => part(second),
            35 | 36 => part(first),
            _ => false,
        };
        if in_code {
            return true;
        }
        let parts: &[i32] = match kind {
            8 | 22 => &[first],
            3..=5 | 18..=21 | 23..=25 => &[first, second],
            10 => &[first, second, third],
            _ => &[],
        };
        let has_part = parts.iter().any(|link| part(*link));
        divides.push(matches!(kind, 6 | 7) || has_part);
    }
    false
}

/// Whether a line is a condition guard. Every place where a line may end counts,
/// since a reader may stand there.
pub fn list_has_guard(words: &[i32]) -> bool {
    (0..=words.len()).any(|place| ends_in_guard(&words[..place]).is_some())
}

fn ends_in_guard(words: &[i32]) -> Option<()> {
    let Some((before, &[5, row, length])) = words.split_last_chunk() else {
        return None;
    };
    let start = before.len().checked_sub(usize::try_from(length).ok()?)?;
    // The same line, if it were an exit.
    let exit = [&before[start..], &[1, row, length]].concat();
    variables_of_last_line(&exit).map(drop)
}

/// A script some of whose pluses, minuses and times are divs and mods.
pub fn dividing_script(chance: &mut Chance) -> Script {
    let mut script = script(chance);
    let once_in = 1 + chance.below(4);
    for row in script.words.chunks_exact_mut(4) {
        if matches!(row[0], 3..=7) && chance.once_in(once_in) {
            row[0] = chance.pick(&[6, 7]);
        }
    }
    script
}

/// Makes conditions of other kinds of some, by their trailers.
pub fn put_kinds(words: &mut [i32], chance: &mut Chance) {
    let mut end = words.len().saturating_sub(1);
    while end > 3 {
        if chance.once_in(3) {
            words[end - 3] = chance.pick(&[1, 4, 5, 5, 5, 5, 0, 6]);
        }
        let line = 3 + words[end - 1].max(0) as usize;
        end = end.saturating_sub(line);
    }
}
