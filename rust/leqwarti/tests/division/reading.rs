//! The condition guard in both readers and for solvers.

use leqwarti::entries::{first_place, line_at, step};
use leqwarti::{ConditionKind, Plan};

use super::{list_of, table_of};

const LOOP_WITH_GUARD: &str =
    "pre true; while 1 div v0 = 1 keep v0 <> 0 fall 0 do skip end; post true";

#[test]
fn a_guard_condition_is_read_at_its_index_and_walking_back() {
    let plan = leqwarti::plan(&table_of(LOOP_WITH_GUARD)).expect("a plan");
    let list = plan.words();
    let kinds: Vec<ConditionKind> = plan.conditions().map(|condition| condition.kind).collect();
    let wanted = [
        ConditionKind::Guard,
        ConditionKind::Exit,
        ConditionKind::Floor,
        ConditionKind::Step,
        ConditionKind::Main,
    ];
    assert_eq!(kinds, wanted);
    assert_eq!(wanted.map(|kind| kind as usize), [5, 1, 2, 3, 4]);
    assert_eq!(ConditionKind::Guard.name(), "guard");

    let first = line_at(list, 0);
    let (kind, row, formula) = (first.kind, first.row, &list[first.start..first.end]);
    assert_eq!((kind, row), (5, 12));
    assert_eq!(formula, [25, 21, 2, 0, 1, 0, 21, 2, 0, 1, 0]);

    let mut place = first_place(list);
    let walked = [(); 5].map(|()| step(list, &mut place).kind);
    assert_eq!(walked, [4, 3, 2, 1, 5]);
    assert_eq!(step(list, &mut place).number, 21);
}

#[test]
fn a_guard_condition_for_solvers() {
    let plan = leqwarti::plan(&table_of(LOOP_WITH_GUARD)).expect("a plan");
    let wanted = "\
(set-logic QF_NIA)
(declare-const v0 Int)
(assert (not (=> (distinct v0 0) (distinct v0 0))))
(check-sat)
";
    assert_eq!(plan.smt(0).as_deref(), Ok(wanted));
}

#[test]
fn a_guard_condition_of_divisors_for_solvers() {
    let list = list_of("guard 7 25 16 23 21 2 1 1 0 21 6 2 0 2 1 1 0");
    let wanted = "\
(set-logic QF_NIA)
(declare-const v0 Int)
(declare-const v1 Int)
(assert (not (=> true (and (distinct v1 0) (distinct (ite (= v1 0) 0 (div v0 v1)) 0)))))
(check-sat)
";
    assert_eq!(leqwarti::smt(&list, 0).as_deref(), Ok(wanted));
    assert_eq!(Plan::read(list).expect("a list").conditions().len(), 1);
}
