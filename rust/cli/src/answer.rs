//! The answer to a file, as text.

use leqwarti::{Condition, ConditionKind, Formula, Plan, Reason, Refusal};

use crate::{Fault, Json, Order, RefusedText, Shortened, Size, Source, Text, Unread};

/// What the generator says of a file.
#[derive(Clone, Debug, PartialEq, Eq)]
pub enum Answer {
    /// Of a file that has a table.
    Table(Source, Result<Plan, Refusal>),
    /// The same with shorter conditions.
    Short(Source, Shortened),
    /// Of a script's text that is not read.
    Unread(RefusedText),
}

impl Answer {
    /// Answers a whole file; or says which line is none of a file.
    pub fn to(file: &[u8]) -> Result<Answer, Fault> {
        match Source::read(file) {
            Ok(source) => {
                let answer = leqwarti::plan(source.words());
                Ok(Answer::Table(source, answer))
            }
            Err(Unread::Refused(text)) => Ok(Answer::Unread(text)),
            Err(Unread::Fault(fault)) => Err(fault),
        }
    }

    /// The answer with shorter conditions; a refusal as it is.
    pub fn shortened(self) -> Answer {
        match self {
            Answer::Table(source, Ok(plan)) => Answer::Short(source, Shortened::of(plan)),
            other => other,
        }
    }

    /// The conditions that are told.
    pub fn plan(&self) -> Option<&Plan> {
        match self {
            Answer::Table(_, answer) => answer.as_ref().ok(),
            Answer::Short(_, shortened) => Some(&shortened.new),
            Answer::Unread(_) => None,
        }
    }

    /// What shortening did, where it was asked for.
    pub fn shortening(&self) -> Option<&Shortened> {
        match self {
            Answer::Short(_, shortened) => Some(shortened),
            Answer::Table(..) | Answer::Unread(_) => None,
        }
    }

    /// What a caller lends at least, where there is a plan; shortening changes
    /// nothing of it.
    pub fn size(&self) -> Option<Size> {
        match self {
            Answer::Table(source, Ok(plan)) => Some(Size::of(source.words(), plan)),
            Answer::Short(source, shortened) => Some(Size::of(source.words(), &shortened.old)),
            Answer::Table(_, Err(_)) | Answer::Unread(_) => None,
        }
    }

    /// The answer as the proved program writes it; see `words_in`.
    pub fn words(&self) -> String {
        self.words_in(Order::OfList)
    }

    /// The same with the conditions in some order. Where they are shortened, a second
    /// line has the words of the new list, and how many less they are. By depth, a
    /// line has the depth before those that have it.
    pub fn words_in(&self, order: Order) -> String {
        let mut text = self.first_line();
        if let Some(shortened) = self.shortening() {
            let (words, saved) = (shortened.words(), shortened.saved());
            text += &format!("shortened {words} {saved}\n");
        }
        if let Some(plan) = self.plan() {
            text += &conditions_words(plan, order);
        }
        text
    }

    /// The answer for a person, with what the file says at the rows it names.
    pub fn text(&self) -> String {
        self.text_in(Order::OfList)
    }

    /// The same with the conditions in some order.
    pub fn text_in(&self, order: Order) -> String {
        let rest = match self {
            Answer::Table(source, Ok(plan)) => conditions_text(plan, order, source),
            Answer::Short(source, shortened) => {
                let conditions = conditions_text(&shortened.new, order, source);
                format!("{shortened}\n{conditions}")
            }
            Answer::Table(source, Err(refusal)) => refusal_text(refusal, source),
            Answer::Unread(text) => text.explanation(),
        };
        self.first_line() + &rest
    }

    /// Why there is no plan, for other programs: the number, and its row, or the
    /// byte of the file where a text is not read.
    pub fn refusal_json(&self) -> Option<Json> {
        let (number, place, at) = match self {
            Answer::Table(_, Ok(_)) | Answer::Short(..) => return None,
            Answer::Table(_, Err(refusal)) => (refusal.reason.number(), "row", refusal.row),
            Answer::Unread(text) => (text.refusal.reason.number(), "byte", text.place_in_file()),
        };
        Some(Json::refusal(number, (place, at), self.text()))
    }

    fn first_line(&self) -> String {
        match self {
            Answer::Table(_, Ok(plan)) => planned(plan),
            Answer::Short(_, shortened) => planned(&shortened.old),
            Answer::Table(_, Err(refusal)) => {
                format!("refused {} {}\n", refusal.reason.number(), refusal.row)
            }
            Answer::Unread(text) => text.first_line(),
        }
    }
}

fn planned(plan: &Plan) -> String {
    let conditions = plan.conditions().len();
    format!("planned {conditions} {}\n", plan.words().len())
}

fn conditions_words(plan: &Plan, order: Order) -> String {
    let mut text = String::new();
    let conditions = order.conditions(plan);
    for of_one_depth in conditions.chunk_by(|one, next| one.depth == next.depth) {
        if order == Order::ByDepth {
            text += &format!("depth {}\n", of_one_depth[0].depth);
        }
        for condition in of_one_depth {
            text += &condition.kind.with_row(condition.row);
            for word in condition.formula.words() {
                text += &format!(" {word}");
            }
            text.push('\n');
        }
    }
    text
}

fn conditions_text(plan: &Plan, order: Order, source: &Source) -> String {
    let conditions = order.conditions(plan).into_iter();
    conditions
        .map(|condition| condition_text(&condition, order, source))
        .collect()
}

fn condition_text(condition: &Condition, order: Order, source: &Source) -> String {
    let (kind, row) = (condition.kind, condition.row);
    let (name, meaning) = (kind.with_row(row), meaning(kind));
    let depth = match (order, condition.depth) {
        (Order::OfList, 0) => String::new(),
        (_, depth) => format!(", depth {depth}"),
    };
    let (line, said) = (source.line(row), source.said(row));
    let formula = formula_text(condition.formula, source);
    format!("\n{name}{depth}: {meaning}\nline {line}: {said}\n{formula}")
}

fn meaning(kind: ConditionKind) -> &'static str {
    match kind {
        ConditionKind::Exit => "where the loop is left, what must hold after it is true",
        ConditionKind::Floor => "where the loop goes on, its variant is not negative",
        ConditionKind::Step => "a pass of the body keeps the invariant and lowers the variant",
        ConditionKind::Main => "the precondition gives what the script needs at its start",
        ConditionKind::Guard => "where the loop's guard is tested, no divisor in it is zero",
    }
}

/// A formula, the two sides of an implication on lines of their own.
fn formula_text(formula: Formula, source: &Source) -> String {
    match formula.implication() {
        Some(sides) => {
            let (given, wanted) = (source.formula(sides.0), source.formula(sides.1));
            format!("    {given}\n  implies\n    {wanted}\n")
        }
        None => format!("    {}\n", source.formula(formula)),
    }
}

fn refusal_text(refusal: &Refusal, source: &Source) -> String {
    let Refusal { reason, row } = *refusal;
    let words = match source.words() {
        [] => "the file has neither rows nor a script's text, which begins with `pre`",
        _ => reason.words(),
    };
    if !reason.has_row() {
        return format!("{words}\n");
    }
    match source {
        Source::Rows(rows) => rows.shown(row, words) + way_out(reason),
        Source::Text(text) if text.has_place(row) => {
            let (point, words) = (text.point(row), words_for_text(reason, text, row));
            format!("{point}: {words}\n{}", point.shown())
        }
        Source::Text(_) => format!("row {row}: {words}\n"),
    }
}

/// Which command helps, where one does.
fn way_out(reason: Reason) -> &'static str {
    match reason {
        Reason::SharedRow => "`./vcgen mend FILE` writes the rows anew, with a copy for each use\n",
        _ => "",
    }
}

/// What is wrong with a row of a text. Of the check's numbers with a row a text
/// that is read gets 8 and 9 only, which is proved; others are told as for rows.
fn words_for_text(reason: Reason, text: &Text, row: usize) -> &'static str {
    let reads_mark = text.words[4 * row] == 9;
    match reason {
        Reason::FrozenAssigned => "a frozen name (v128 to v255) is assigned to",
        Reason::OutOfPlace if reads_mark => "a guard or an assigned expression reads a mark",
        Reason::OutOfPlace => {
            "a guard or an assigned expression reads a frozen name (v128 to v255)"
        }
        _ => reason.words(),
    }
}

#[cfg(test)]
mod tests {
    use super::*;

    fn both(file: &str) -> (String, String) {
        let answer = Answer::to(file.as_bytes()).unwrap();
        (answer.text(), answer.words())
    }

    #[test]
    fn a_plan_is_told_row_by_row() {
        let (text, words) =
            both("v0 is x\n16 0 0 0\n2 0 0 0\n2 0 0 0\n20 1 2 0\n32 0 0 0\n48 0 4 3 # all\n");
        let expected = "planned 1 12\n\n\
            main 5: the precondition gives what the script needs at its start\n\
            line 7: all\n    true\n  implies\n    x = x\n";
        assert_eq!(text, expected);
        assert_eq!(words, "planned 1 12\nmain 5 25 16 20 2 0 2 0\n");
    }

    #[test]
    fn a_shortened_plan_says_what_is_saved() {
        let answer = Answer::to(b"pre true; v0 := v0 * 1; post v0 = v0 + 0");
        let answer = answer.unwrap().shortened();
        let expected = "planned 1 21\nshortened to 10 words, 11 saved\n\n\
            main 10: the precondition gives what the script needs at its start\n\
            line 1: pre true\n    v0 = v0\n";
        assert_eq!(answer.text(), expected);
        let expected = "planned 1 21\nshortened 10 11\nmain 10 20 2 0 2 0\n";
        assert_eq!(answer.words(), expected);
    }

    #[test]
    fn a_refusal_is_not_shortened() {
        for refused in ["", "99 0 0 0", "pre", "pre true; v128 := 0; post true"] {
            let answer = Answer::to(refused.as_bytes()).unwrap();
            assert_eq!(answer.clone().shortened(), answer);
        }
    }

    #[test]
    fn a_refusal_points_at_its_line() {
        let (text, words) = both("# head\n16 0 0 0\n99 0 0 0 # odd\n");
        assert_eq!(
            text,
            "refused 2 1\nrow 1, line 3: the row has a kind that does not exist\n    99 0 0 0 # odd\n"
        );
        assert_eq!(words, "refused 2 1\n");
    }

    #[test]
    fn who_shares_a_row_is_told_what_mends_it() {
        let (text, words) = both("2 0 0 0\n3 0 0 0 # x + x");
        assert_eq!(
            text,
            "refused 6 1\n\
             row 1, line 2: the row links to a row that is linked already; each row is used once\n    \
             3 0 0 0 # x + x\n\
             `./vcgen mend FILE` writes the rows anew, with a copy for each use\n"
        );
        assert_eq!(words, "refused 6 1\n");
    }

    #[test]
    fn no_rows_are_refused_with_1() {
        let (text, words) = both("# nothing\n");
        assert_eq!(
            text,
            "refused 1 0\nthe file has neither rows nor a script's text, which begins with `pre`\n"
        );
        assert_eq!(words, "refused 1 0\n");
    }

    /// Whatever the check might say of a text's table, at whatever row.
    #[test]
    fn every_refusal_of_a_text_is_told() {
        let source = Source::read(b"pre v0 = 1;\nskip; post true").unwrap();
        for reason in Reason::ALL {
            for row in 0..8 {
                let refusal = Refusal { reason, row };
                let answer = Answer::Table(source.clone(), Err(refusal));
                let text = answer.text();
                assert!(text.lines().count() > 1, "{text}");
            }
        }
        let told = |reason, row| refusal_text(&Refusal { reason, row }, &source);
        assert_eq!(
            told(Reason::BadLink, 2),
            format!("row 2: {}\n", Reason::BadLink.words())
        );
        assert_eq!(
            told(Reason::FieldOutOfRange, 0),
            format!(
                "line 1, column 5: {}\n    pre v0 = 1;\n        ^\n",
                Reason::FieldOutOfRange.words()
            )
        );
    }
}
