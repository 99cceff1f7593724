//! Tables: scripts of random shape, faulty ones, altered ones, random rows.

use super::{Chance, KINDS};

/// A script's words, and its nesting where no fault is in it.
pub struct Script {
    pub words: Vec<i32>,
    pub nesting: usize,
}

/// A script that is accepted.
pub fn script(chance: &mut Chance) -> Script {
    Writer::new(chance, 0).script()
}

/// A script that mostly has a fault that only the whole shows: 7 to 10.
pub fn faulty_script(chance: &mut Chance) -> Script {
    let slips = chance.pick(&[2, 5, 20, 80, 2_000]) as usize;
    Writer::new(chance, slips).script()
}

/// A script with some of its words changed.
pub fn altered_script(chance: &mut Chance) -> Script {
    let mut script = script(chance);
    for _ in 0..1 + chance.below(3) {
        alter(&mut script.words, chance);
    }
    if chance.once_in(40) {
        let length = script.words.len() - 1 - chance.below(5);
        script.words.truncate(length);
    }
    script
}

/// Rows by chance, most of which begin with a kind and link to lower rows.
pub fn random_rows(chance: &mut Chance) -> Vec<i32> {
    let mut words = Vec::new();
    let wild = chance.once_in(3);
    for row in 0..1 + chance.below(10) {
        let mut field = || match chance.below(4) {
            _ if wild => chance.word(),
            0 => 0,
            _ => chance.below(row.max(1)) as i32,
        };
        let fields = [field(), field(), field()];
        words.push(match chance.below(12) {
            0 => chance.word(),
            _ => chance.pick(&KINDS),
        });
        words.extend(fields);
    }
    if chance.once_in(8) {
        words.truncate(chance.below(words.len()));
    }
    words
}

fn alter(words: &mut [i32], chance: &mut Chance) {
    let rows = words.len() / 4;
    let place = chance.below(words.len());
    match chance.below(9) {
        0 => words[place] = words[place].wrapping_add(1),
        1 => words[place] = words[place].wrapping_sub(1),
        2 => words[place] = chance.below(rows + 1) as i32,
        3 => words[place] = chance.word(),
        4 => words[place / 4 * 4] = chance.pick(&KINDS),
        5 => words[place] = words[chance.below(words.len())],
        6 => words.swap(place, place ^ 1),
        7 => words[place] = chance.pick(&[-1, 0, 127, 128, 255, 256]),
        _ => words[place / 4 * 4 + 3] = chance.below(rows) as i32,
    }
}

/// Where an expression or a formula stands.
#[derive(Clone, Copy, PartialEq)]
enum Place {
    Code,
    Annotation,
    /// Precondition and postcondition.
    Boundary,
}

struct Writer<'a> {
    chance: &'a mut Chance,
    rows: Vec<[i32; 4]>,
    variables: usize,
    most_nesting: usize,
    nesting: usize,
    deepest: usize,
    /// How many loops have a body in which the next row stands.
    bodies: usize,
    /// One leaf or assignment in so many is out of place; 0 for none.
    slips: usize,
}

impl Writer<'_> {
    fn new(chance: &mut Chance, slips: usize) -> Writer<'_> {
        let variables = chance.pick(&[1, 2, 3, 128]) as usize;
        let most_nesting = match slips {
            0 => chance.below(9),
            _ => 5 + chance.below(7),
        };
        Writer {
            chance,
            rows: Vec::new(),
            variables,
            most_nesting,
            nesting: 0,
            deepest: 0,
            bodies: 0,
            slips,
        }
    }

    fn script(mut self) -> Script {
        let size = match self.chance.below(40) {
            0 => 200 + self.chance.below(600),
            1..=9 => 20 + self.chance.below(150),
            _ => 1 + self.chance.below(30),
        };
        let boundary = 1 + self.chance.below(6);
        let precondition = self.formula(boundary, Place::Boundary);
        let statement = self.statement(size);
        let postcondition = self.formula(boundary, Place::Boundary);
        if self.slips_now() {
            self.row([32, 0, 0, 0]);
        }
        self.row([48, precondition, statement, postcondition]);
        Script {
            words: self.rows.concat(),
            nesting: self.deepest,
        }
    }

    fn row(&mut self, row: [i32; 4]) -> i32 {
        self.rows.push(row);
        self.rows.len() as i32 - 1
    }

    fn slips_now(&mut self) -> bool {
        self.slips > 0 && self.chance.once_in(self.slips)
    }

    /// Two sizes from a size: even, or one of them small.
    fn split(&mut self, size: usize) -> (usize, usize) {
        let first = match self.chance.below(3) {
            0 => size / 2,
            1 => size.min(2),
            _ => size - size.min(2),
        };
        (first, size - first)
    }

    fn statement(&mut self, size: usize) -> i32 {
        let may_nest = self.nesting < self.most_nesting;
        match self.chance.below(8) {
            _ if size < 3 => self.short_statement(size),
            0 | 1 if may_nest => self.branch(size),
            2 | 3 if may_nest => self.while_loop(size),
            4 => self.short_statement(size.min(12)),
            _ => {
                let (first, second) = self.split(size - 1);
                let first = self.statement(first);
                let second = self.statement(second);
                self.row([34, first, second, 0])
            }
        }
    }

    fn short_statement(&mut self, size: usize) -> i32 {
        match self.chance.below(6) {
            0 => self.row([32, 0, 0, 0]),
            1 => {
                let assertion = self.formula(size, Place::Annotation);
                self.row([38, assertion, 0, 0])
            }
            _ => {
                let assigned = self.expression(size, Place::Code);
                let frozen = self.slips_now();
                let variable = if frozen {
                    self.frozen()
                } else {
                    self.ordinary()
                };
                self.row([33, variable, assigned, 0])
            }
        }
    }

    fn deeper(&mut self, size: usize) -> i32 {
        self.nesting += 1;
        self.deepest = self.deepest.max(self.nesting);
        let statement = self.statement(size);
        self.nesting -= 1;
        statement
    }

    /// Its parts stand in either order.
    fn branch(&mut self, size: usize) -> i32 {
        let (then_size, else_size) = self.split(size - 1);
        let (then, otherwise, guard);
        if self.chance.once_in(2) {
            guard = self.formula(size / 4, Place::Code);
            then = self.deeper(then_size);
            otherwise = self.deeper(else_size);
        } else {
            otherwise = self.deeper(else_size);
            then = self.deeper(then_size);
            guard = self.formula(size / 4, Place::Code);
        }
        self.row([35, guard, then, otherwise])
    }

    fn while_loop(&mut self, size: usize) -> i32 {
        let part = 1 + self.chance.below(size.min(6));
        let variant = self.expression(part, Place::Annotation);
        let invariant = self.formula(part, Place::Annotation);
        let note = self.row([37, invariant, variant, 0]);
        let begin = self.rows.len();
        self.bodies += 1;
        let body = self.deeper(size - 1);
        let guard = self.formula(part, Place::Code);
        let the_loop = self.row([36, guard, note, body]);
        // A mark of this loop was written as the count of bodies, less than 0.
        let mark = [9, -(self.bodies as i32), 0, 0];
        for row in &mut self.rows[begin..] {
            if *row == mark {
                row[1] = the_loop;
            }
        }
        self.bodies -= 1;
        the_loop
    }

    fn expression(&mut self, size: usize, place: Place) -> i32 {
        match self.chance.below(8) {
            _ if size < 2 => self.leaf(place),
            0 => {
                let part = self.expression(size - 1, place);
                self.row([8, part, 0, 0])
            }
            1 if size > 3 => {
                let (first, second) = self.split(size - 2);
                let second = self.expression(second, place);
                let formula = self.formula(2, place);
                let first = self.expression(first, place);
                self.row([10, formula, first, second])
            }
            _ => {
                let (first, second) = self.split(size - 1);
                let first = self.expression(first, place);
                let second = self.expression(second, place);
                let kind = self.chance.pick(&[3, 4, 5, 6, 7]);
                self.row([kind, first, second, 0])
            }
        }
    }

    fn formula(&mut self, size: usize, place: Place) -> i32 {
        match self.chance.below(8) {
            _ if size < 2 => {
                let kind = self.chance.pick(&[16, 17]);
                self.row([kind, 0, 0, 0])
            }
            0 | 1 => {
                let part = self.formula(size - 1, place);
                self.row([22, part, 0, 0])
            }
            2 | 3 => {
                let (first, second) = self.split(size - 1);
                let second = self.formula(second, place);
                let first = self.formula(first, place);
                let kind = self.chance.pick(&[23, 24, 25]);
                self.row([kind, first, second, 0])
            }
            _ => {
                let (first, second) = self.split(size - 1);
                let first = self.expression(first, place);
                let second = self.expression(second, place);
                let kind = self.chance.pick(&[18, 19, 20, 21]);
                self.row([kind, first, second, 0])
            }
        }
    }

    fn leaf(&mut self, place: Place) -> i32 {
        if self.slips_now() {
            let (frozen, mark) = (self.frozen(), self.chance.below(self.rows.len() + 9));
            let row = self.chance.once_in(2);
            return self.row(if row {
                [2, frozen, 0, 0]
            } else {
                [9, mark as i32, 0, 0]
            });
        }
        match self.chance.below(10) {
            0..=2 => {
                let value = self.chance.word();
                self.row([1, value, 0, 0])
            }
            3 if place != Place::Code => {
                let frozen = self.frozen();
                self.row([2, frozen, 0, 0])
            }
            4 | 5 if place == Place::Annotation && self.bodies > 0 => {
                let of_body = 1 + self.chance.below(self.bodies);
                self.row([9, -(of_body as i32), 0, 0])
            }
            _ => {
                let variable = self.ordinary();
                self.row([2, variable, 0, 0])
            }
        }
    }

    fn ordinary(&mut self) -> i32 {
        self.chance.below(self.variables) as i32
    }

    fn frozen(&mut self) -> i32 {
        let any = 128 + self.chance.below(128) as i32;
        self.chance.pick(&[128, 255, any])
    }
}
