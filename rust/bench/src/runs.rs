//! The scripts that are run, each with the values that it starts from.

use std::fmt::Write;

use fuzz::scripts::EXAMPLE_A;

use crate::scripts::increments;

/// A script that ends, with the variables that do not start as 0.
pub struct Running {
    pub name: &'static str,
    pub table: Vec<i32>,
    pub start: Vec<(usize, i64)>,
}

/// So many passes of what is put into a loop over v1.
const PASSES: i64 = 100;

pub fn all() -> Vec<Running> {
    let mut all = vec![
        running("example A, v0 = 1,000", EXAMPLE_A.to_vec(), &[(0, 1_000)]),
        running("400 increments, to the left", increments(400), &[]),
        running(
            "400 increments, to the right",
            increments_to_the_right(),
            &[],
        ),
        running("8 loops in one another", nested_loops(8), &[]),
    ];
    let in_a_loop = [
        ("quotients and remainders", QUOTIENTS.to_string()),
        ("products", PRODUCTS.to_string()),
        ("branches and assertions", BRANCHES.to_string()),
        ("1,900 rows of sums, to the left", sums_to_the_left(950)),
        ("1,900 rows of sums, to the right", sums_to_the_right(950)),
        (
            "1,900 rows of sums, to both sides",
            format!("v0 := {}", broad_sum(950)),
        ),
        ("1,900 negates", format!("v0 := {}v0", "-".repeat(1_900))),
        ("475 chooses in one another", chooses(475)),
        ("1,900 rows of ands", ands(475)),
    ];
    for (name, body) in in_a_loop {
        let start = [(0, 3), (1, PASSES), (2, 12_345), (3, 48_271), (4, 9)];
        all.push(running(name, in_loop(&body), &start));
    }
    all
}

fn running(name: &'static str, table: Vec<i32>, start: &[(usize, i64)]) -> Running {
    let start = start.to_vec();
    Running { name, table, start }
}

fn table(statement: &str) -> Vec<i32> {
    let text = format!("pre true; {statement}; post true");
    leqwarti::read_text(text.as_bytes()).expect("a script")
}

/// The statement in a loop that counts v1 down.
fn in_loop(body: &str) -> Vec<i32> {
    table(&format!(
        "while 0 < v1 keep true fall v1 do {body}; v1 := v1 - 1 end"
    ))
}

const QUOTIENTS: &str = "v5 := v2 div 7 + v2 mod 11; v5 := (v5 div v4) mod 13 - v2 div 5 mod 3;
    v2 := (v2 + v5) mod 65537 + v5 div 3 mod 17";

const PRODUCTS: &str = "v2 := v2 * v3 mod 2147483647; v5 := v2 * v2 - v3 * v3;
    v6 := v0 * v0 * v0 * v4 - v3 * v3 * -3";

const BRANCHES: &str = "if v2 < v3 and not v1 = 5 or v4 < 3 then assert v1 <= v1 else skip end;
    if v1 mod 2 = 0 then v5 := v5 + 1 else assert 0 < v4 implies v1 <= mark(1) end";

fn increments_to_the_right() -> Vec<i32> {
    table(&["v0 := v0 + 1"; 400].join("; "))
}

/// Each has two passes of the next one.
fn nested_loops(count: usize) -> Vec<i32> {
    let mut text = "skip".to_string();
    for level in 0..count {
        let around = format!(
            "v{level} := 2; while 0 < v{level} keep true fall v{level} do
                 {text}; v{level} := v{level} - 1 end"
        );
        text = around;
    }
    table(&text)
}

fn sums_to_the_left(count: usize) -> String {
    let mut text = "v0 := v0".to_string();
    for place in 0..count {
        let sign = if place % 2 == 0 { '+' } else { '-' };
        write!(text, " {sign} v4").expect("a string takes all");
    }
    text
}

fn sums_to_the_right(count: usize) -> String {
    let open = "v4 - (".repeat(count);
    let close = ")".repeat(count);
    format!("v0 := {open}v0{close}")
}

fn broad_sum(leaves: usize) -> String {
    match leaves {
        0 | 1 => "v4".to_string(),
        _ => {
            let (left, right) = (broad_sum(leaves / 2), broad_sum(leaves - leaves / 2));
            format!("({left} - {right})")
        }
    }
}

fn chooses(count: usize) -> String {
    let open = "when(true, ".repeat(count);
    let close = ", v1)".repeat(count);
    format!("v0 := {open}v0{close}")
}

fn ands(count: usize) -> String {
    let all = ["v4 < v3"; 475];
    format!("assert {}", all[..count].join(" and "))
}
