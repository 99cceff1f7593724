//! Random scripts as texts of request P4, over v0, v1 and v2; counted loops
//! count in a variable of their own.

use crate::random::Random;

/// Where a div or mod may stand.
#[derive(Clone, Copy)]
pub struct Divisions {
    pub in_code: bool,
    pub in_annotations: bool,
}

pub const NOWHERE: Divisions = Divisions {
    in_code: false,
    in_annotations: false,
};
pub const IN_ANNOTATIONS: Divisions = Divisions {
    in_code: false,
    in_annotations: true,
};
pub const ANYWHERE: Divisions = Divisions {
    in_code: true,
    in_annotations: true,
};

pub struct Texts {
    pub random: Random,
    pub divisions: Divisions,
    pub loops: bool,
}

impl Texts {
    pub fn new(seed: u64, divisions: Divisions, loops: bool) -> Texts {
        Texts {
            random: Random(seed * 0x9e37_79b9 + 1),
            divisions,
            loops,
        }
    }

    pub fn script(&mut self, depth: usize) -> String {
        let precondition = self.annotation(1);
        let statements = self.statements(depth);
        let postcondition = self.annotation(1);
        format!("pre {precondition}; {statements}; post {postcondition}")
    }

    pub fn expression(&mut self, depth: usize, divides: bool) -> String {
        let choice = if depth == 0 { 0 } else { self.random.below(9) };
        match choice {
            0 | 1 => self.leaf(),
            2 => format!("-({})", self.expression(depth - 1, divides)),
            3 => {
                let chooser = self.formula(depth - 1, divides);
                let first = self.expression(depth - 1, divides);
                let second = self.expression(depth - 1, divides);
                format!("when({chooser}, {first}, {second})")
            }
            _ => {
                let left = self.expression(depth - 1, divides);
                let right = self.expression(depth - 1, divides);
                let signs = ["+", "-", "*", "div", "mod"];
                let sign = self.random.pick(&signs[..if divides { 5 } else { 3 }]);
                format!("({left} {sign} {right})")
            }
        }
    }

    fn leaf(&mut self) -> String {
        let leaves = ["v0", "v1", "v2", "0", "1", "2", "-1"];
        self.random.pick(&leaves).to_string()
    }

    pub fn formula(&mut self, depth: usize, divides: bool) -> String {
        let choice = if depth == 0 { 0 } else { self.random.below(8) };
        match choice {
            0 => self.random.pick(&["true", "false", "v1 <> 0"]).to_string(),
            1 => format!("not ({})", self.formula(depth - 1, divides)),
            2..=4 => {
                let left = self.formula(depth - 1, divides);
                let right = self.formula(depth - 1, divides);
                let connective = self.random.pick(&["and", "or", "implies"]);
                format!("({left}) {connective} ({right})")
            }
            _ => {
                let left = self.expression(depth - 1, divides);
                let right = self.expression(depth - 1, divides);
                let comparison = self.random.pick(&["<", "<=", "=", "<>"]);
                format!("{left} {comparison} {right}")
            }
        }
    }

    /// A formula that is often true.
    fn annotation(&mut self, depth: usize) -> String {
        match self.random.below(4) {
            0 | 1 => "true".to_string(),
            2 => "v1 <> 0".to_string(),
            _ => self.formula(depth + 1, self.divisions.in_annotations),
        }
    }

    fn statements(&mut self, depth: usize) -> String {
        let first = self.statement(depth);
        if self.random.below(2) == 0 {
            return first;
        }
        format!("{first}; {}", self.statements(depth))
    }

    fn statement(&mut self, depth: usize) -> String {
        let compound = if self.loops { 7 } else { 5 };
        let choice = self.random.below(if depth == 0 { 4 } else { compound });
        match choice {
            0 => "skip".to_string(),
            1 | 2 => {
                let variable = self.random.pick(&["v0", "v1", "v2"]);
                let assigned = self.expression(2, self.divisions.in_code);
                format!("{variable} := {assigned}")
            }
            3 => format!("assert {}", self.annotation(1)),
            4 => {
                let guard = self.formula(2, self.divisions.in_code);
                let then = self.statements(depth - 1);
                let otherwise = self.statements(depth - 1);
                format!("if {guard} then {then} else {otherwise} end")
            }
            5 => self.counted_loop(depth),
            _ => self.any_loop(depth),
        }
    }

    fn counted_loop(&mut self, depth: usize) -> String {
        let counter = format!("v{}", 2 + depth);
        let guard = self.formula(2, self.divisions.in_code);
        let invariant = self.annotation(1);
        let body = self.statements(depth - 1);
        format!(
            "{counter} := 3; while 0 < {counter} and ({guard}) keep {invariant} fall {counter} \
             do {body}; {counter} := {counter} - 1 end"
        )
    }

    fn any_loop(&mut self, depth: usize) -> String {
        let guard = self.formula(2, self.divisions.in_code);
        let invariant = self.annotation(1);
        let variant = self.expression(2, self.divisions.in_annotations);
        let body = self.statements(depth - 1);
        format!("while {guard} keep {invariant} fall {variant} do {body} end")
    }
}
