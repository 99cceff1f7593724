//! The scripts' texts that are read.

/// Makes a text of so many bytes.
type Making = fn(usize) -> Vec<u8>;

pub const KINDS: [(&str, Making); 6] = [
    ("loops", loops),
    ("short assignments", assignments),
    ("brackets", brackets),
    ("sums in brackets", nested_sums),
    ("blanks", blanks),
    ("loops after a wrong token", loops_refused),
];

/// The least script there is.
pub const LEAST: &[u8] = b"pre true; skip; post true";

const FIRST: &str = "pre 0 <= v0;\n";
const LAST: &str = "post v0 = 0\n";

/// A loop as it is written by hand, in the midst of other things.
const LOOP: &str = "
                while 0 < v1 keep 0 <= v1 and v2 <= 1000 * v3
                fall v1
                do
                    assert v1 <= mark(1);
                    v2 := v2 + 3 * v1;
                    if v128 < v2 or not (v2 < 0)
                    then
                        v2 := when(v3 = 0, -1, v2 mod v3)
                    else
                        skip
                    end;
                    v1 := v1 - 1
                end;
";

/// As many of these as fit in so many bytes, and blanks for the rest.
fn filled(first: &str, each: &str, last: &str, bytes: usize) -> Vec<u8> {
    let room = bytes - first.len() - last.len();
    let mut text = first.to_string() + &each.repeat(room / each.len());
    text += &" ".repeat(room % each.len());
    (text + last).into_bytes()
}

/// Loops one after the other.
fn loops(bytes: usize) -> Vec<u8> {
    filled(FIRST, LOOP, LAST, bytes)
}

/// The shortest assignments, one after the other.
pub fn assignments(bytes: usize) -> Vec<u8> {
    filled(FIRST, "v1:=v1+1;", LAST, bytes)
}

/// A formula in as many brackets as there is room for.
fn brackets(bytes: usize) -> Vec<u8> {
    let (first, last) = ("pre ", ";skip;post true");
    let depth = (bytes - first.len() - last.len() - 6) / 2;
    let (open, close) = ("(".repeat(depth), ")".repeat(depth));
    filled(&[first, &open, "true", &close].concat(), " ", last, bytes)
}

/// A sum in as many brackets: each holds what stands before it.
fn nested_sums(bytes: usize) -> Vec<u8> {
    let (first, last) = ("pre 0<", ";skip;post true");
    let depth = (bytes - first.len() - last.len() - 6) / 4;
    let (open, close) = ("(".repeat(depth), "+1)".repeat(depth));
    filled(&[first, &open, "v0", &close].concat(), " ", last, bytes)
}

/// Blanks alone, which no text may be.
fn blanks(bytes: usize) -> Vec<u8> {
    vec![b' '; bytes]
}

/// Loops with one thing too many in front: what follows is looked at for bytes
/// that begin no token.
fn loops_refused(bytes: usize) -> Vec<u8> {
    filled("skip;", LOOP, LAST, bytes)
}
