//! Request P1: "The tree read back must mean the same in every state." The
//! reference's texts are read as S-expressions and evaluated, whatever division
//! by zero may be.

use std::collections::BTreeSet;

use fuzz::scripts::formula_words;
use fuzz::texts::dividing_list;
use fuzz::{seed_from_environment, tell, Prng};
use reference::{lines, smt, spelled_formula_is_true, Row, State, Variable, VARIABLES};

/// A text as it is written: a symbol or numeral, or a list.
enum Tree<'a> {
    Atom(&'a str),
    List(Vec<Tree<'a>>),
}

fn trees(text: &str) -> Vec<Tree<'_>> {
    let mut open = vec![Vec::new()];
    let mut rest = text;
    while let Some(letter) = rest.chars().next() {
        let mut length = 1;
        match letter {
            '(' => open.push(Vec::new()),
            ')' => {
                let list = open.pop().expect("a list that is open");
                open.last_mut()
                    .expect("no more ) than (")
                    .push(Tree::List(list));
            }
            ' ' | '\n' => (),
            _ => {
                length = rest.find(['(', ')', ' ', '\n']).unwrap_or(rest.len());
                let atom = Tree::Atom(&rest[..length]);
                open.last_mut().expect("a list that is open").push(atom);
            }
        }
        rest = &rest[length..];
    }
    assert_eq!(open.len(), 1, "every list is closed");
    open.remove(0)
}

/// The values of names, and of divisions by zero.
struct Model<'a> {
    state: &'a State,
    by_zero: fn(i128) -> i128,
}

#[derive(Clone, Copy, PartialEq, Eq)]
enum Value {
    Bool(bool),
    Int(i128),
}

use Value::{Bool, Int};

/// The number of a name with this letter.
fn numbered(name: &str, letter: char) -> Option<usize> {
    name.strip_prefix(letter)?.parse().ok()
}

impl Model<'_> {
    fn atom(&self, atom: &str) -> Value {
        match (numbered(atom, 'v').or(numbered(atom, 'f')), atom) {
            (Some(number), _) => Int(self.state.variable(Variable(number))),
            (None, "true") => Bool(true),
            (None, "false") => Bool(false),
            (None, _) => match numbered(atom, 'm') {
                Some(number) => Int(self.state.mark(Row(number))),
                None => Int(atom.parse().expect("a numeral")),
            },
        }
    }

    /// The value of a term; nothing where a number is too large for this.
    fn value(&self, tree: &Tree) -> Option<Value> {
        let parts = match tree {
            Tree::Atom(atom) => return Some(self.atom(atom)),
            Tree::List(parts) => parts,
        };
        let Tree::Atom(operator) = &parts[0] else {
            panic!("a list that begins with a list");
        };
        if *operator == "ite" {
            let chosen = match self.value(&parts[1])? {
                Bool(true) => &parts[2],
                _ => &parts[3],
            };
            return self.value(chosen);
        }
        let values: Option<Vec<Value>> = parts[1..].iter().map(|part| self.value(part)).collect();
        self.applied(operator, &values?)
    }

    fn applied(&self, operator: &str, values: &[Value]) -> Option<Value> {
        Some(match (operator, values) {
            ("not", [Bool(part)]) => Bool(!part),
            ("and", [Bool(left), Bool(right)]) => Bool(*left && *right),
            ("or", [Bool(left), Bool(right)]) => Bool(*left || *right),
            ("=>", [Bool(left), Bool(right)]) => Bool(!left || *right),
            ("<", [Int(left), Int(right)]) => Bool(left < right),
            ("<=", [Int(left), Int(right)]) => Bool(left <= right),
            ("=", [Int(left), Int(right)]) => Bool(left == right),
            ("distinct", [Int(left), Int(right)]) => Bool(left != right),
            ("+", [Int(left), Int(right)]) => Int(left.checked_add(*right)?),
            ("-", [Int(left), Int(right)]) => Int(left.checked_sub(*right)?),
            ("*", [Int(left), Int(right)]) => Int(left.checked_mul(*right)?),
            ("-", [Int(part)]) => Int(part.checked_neg()?),
            ("div" | "mod", [Int(left), Int(0)]) => Int((self.by_zero)(*left)),
            ("div", [Int(left), Int(right)]) => Int(left.checked_div_euclid(*right)?),
            ("mod", [Int(left), Int(right)]) => Int(left.checked_rem_euclid(*right)?),
            _ => panic!("no such term: {operator} with {} parts", values.len()),
        })
    }
}

/// The names in a term.
fn add_names<'a>(tree: &Tree<'a>, names: &mut BTreeSet<&'a str>) {
    match tree {
        Tree::List(parts) => parts.iter().for_each(|part| add_names(part, names)),
        Tree::Atom(atom) if ['v', 'f', 'm'].iter().any(|l| numbered(atom, *l).is_some()) => {
            names.insert(atom);
        }
        Tree::Atom(_) => (),
    }
}

fn is_atom(tree: &Tree, expected: &str) -> bool {
    matches!(tree, Tree::Atom(atom) if *atom == expected)
}

/// The asserted term of a script, whose declarations are the names in it.
fn assertion<'t, 'a>(script: &'t [Tree<'a>]) -> &'t Tree<'a> {
    let commands: Vec<&[Tree]> = script
        .iter()
        .map(|command| match command {
            Tree::List(parts) => &parts[..],
            Tree::Atom(atom) => panic!("{atom} is no command"),
        })
        .collect();
    let [logic, declarations @ .., assert, check] = &commands[..] else {
        panic!("three commands at least");
    };
    assert!(is_atom(&logic[0], "set-logic") && is_atom(&logic[1], "QF_NIA"));
    assert!(is_atom(&assert[0], "assert") && assert.len() == 2);
    assert!(is_atom(&check[0], "check-sat") && check.len() == 1);
    let mut names = BTreeSet::new();
    add_names(&assert[1], &mut names);
    assert_eq!(names.len(), declarations.len());
    for declaration in declarations {
        let [keyword, Tree::Atom(name), sort] = declaration else {
            panic!("a declaration has three parts");
        };
        assert!(is_atom(keyword, "declare-const") && is_atom(sort, "Int"));
        assert!(
            names.contains(name),
            "{name} is declared and does not occur"
        );
    }
    &assert[1]
}

/// Small values for all names, zero often.
fn any_state(random: &mut Prng) -> State {
    let mut state = State::default();
    for number in 0..2_048 {
        let value = i128::from(random.between(-3, 3));
        state.set_mark(Row(number), value);
        if number < VARIABLES {
            let value = i128::from(random.between(-3, 3));
            state.set_variable(Variable(number), value);
        }
    }
    state
}

const DIVISIONS_BY_ZERO: [fn(i128) -> i128; 3] = [|_| 0, |n| n, |n| 7 - 3 * (n % 1_000)];

#[test]
fn texts_mean_what_the_conditions_mean() {
    let seed = seed_from_environment();
    let (mut compared, mut false_ones) = (0, 0);
    for case in 0..4_000 {
        let random = &mut Prng::for_case(seed, case);
        let list = if random.once_in(2) {
            dividing_list(random)
        } else {
            let formula = formula_words(random, 30, 0);
            [&formula[..], &[4, 0, formula.len() as i32, 0, -1]].concat()
        };
        let line = lines(&list).expect("a list")[0];
        let written = smt(&list, 0, 1 << 16);
        if written.number != 0 {
            continue;
        }
        let text = String::from_utf8(written.buffer[..written.used].to_vec()).expect("ASCII");
        let script = trees(&text);
        let assertion = assertion(&script);
        for by_zero in DIVISIONS_BY_ZERO {
            let state = &any_state(random);
            let condition = spelled_formula_is_true(&list[line.start..line.end], state);
            let asserted = Model { state, by_zero }.value(assertion);
            if let (Some(Ok(truth)), Some(value)) = (condition, asserted) {
                assert!(value == Bool(!truth), "case {case}: {text}");
                compared += 1;
                false_ones += u32::from(!truth);
            }
        }
    }
    tell(format!(
        "{compared} compared, {false_ones} conditions false"
    ));
    assert!(compared > 8_000 && false_ones > 2_000);
}
