//! A proof for other programs.

use super::{Finding, Outcome, Premise, Proof, Report, Verdict};
use crate::solvers::{Replied, Reply};
use crate::Json;

impl Report<'_> {
    pub fn json(&self, proof: &Proof) -> Json {
        let verdict = match proof.outcome() {
            Outcome::Proved => "proved",
            Outcome::NotProved => "not proved",
            Outcome::Contradicted => "contradiction",
        };
        let conditions = proof
            .findings
            .iter()
            .map(|finding| self.condition_json(finding));
        let opposites = proof.opposites.iter();
        let warnings = opposites.filter_map(|opposite| self.warning_json(opposite));
        let json = Json::object([
            ("verdict", Json::text(verdict)),
            ("conditions", Json::list(conditions)),
            ("warnings", Json::list(warnings)),
        ]);
        match self.shortened {
            Some(shortened) => json
                .with("words", Json::number(shortened.words()))
                .with("saved", Json::number(shortened.saved())),
            None => json,
        }
    }

    fn condition_json(&self, finding: &Finding) -> Json {
        let condition = Json::object([
            ("name", Json::text(finding.kind.name())),
            ("row", Json::number(finding.row)),
            ("depth", Json::number(finding.depth)),
            ("line", Json::number(self.source.line(finding.row))),
            ("verdict", Json::text(verdict_word(&finding.verdict))),
            (
                "solvers",
                Json::list(finding.replies.iter().map(reply_json)),
            ),
        ]);
        match &finding.verdict {
            Verdict::False(refutation) => {
                let values = self.values(&refutation.state);
                let values = values.map(|(name, value)| (name, Json::Text(value)));
                condition
                    .with("values", Json::Object(values.collect()))
                    .with("false_part", Json::text(self.part(refutation)))
            }
            Verdict::Contradiction(contradiction) => {
                condition.with("problem", Json::text(self.contradiction(contradiction)))
            }
            Verdict::True | Verdict::Open => condition,
        }
    }

    /// What is told of a premise, by what is found of its opposite.
    fn warning_json(&self, opposite: &Finding) -> Option<Json> {
        let of = Premise::of(opposite.kind)?.key();
        let warning = Json::object([
            ("row", Json::number(opposite.row)),
            ("line", Json::number(self.source.line(opposite.row))),
            ("of", Json::text(of)),
        ]);
        match &opposite.verdict {
            Verdict::True => Some(warning.with("state", Json::text("none"))),
            Verdict::False(_) => None,
            Verdict::Open => Some(warning.with("state", Json::text("open"))),
            Verdict::Contradiction(contradiction) => {
                let problem = self.contradiction(contradiction);
                let warning = warning.with("state", Json::text("contradiction"));
                Some(warning.with("problem", Json::text(problem)))
            }
        }
    }
}

fn verdict_word(verdict: &Verdict) -> &'static str {
    match verdict {
        Verdict::True => "true",
        Verdict::False(_) => "false",
        Verdict::Open => "open",
        Verdict::Contradiction(_) => "contradiction",
    }
}

fn reply_json(replied: &Replied) -> Json {
    let answer = match &replied.reply {
        Reply::Unsat => "unsat",
        Reply::Sat(_) => "sat",
        Reply::Undecided => "undecided",
        Reply::Failed(_) => "failed",
        Reply::NotAsked(_) => "not asked",
    };
    let seconds = format!("{:.3}", replied.time.as_secs_f64());
    let json = Json::object([
        ("name", Json::text(replied.solver)),
        ("answer", Json::text(answer)),
        ("seconds", Json::number(seconds)),
    ]);
    match &replied.reply {
        Reply::Failed(problem) | Reply::NotAsked(problem) => {
            json.with("problem", Json::text(problem))
        }
        _ => json,
    }
}
