//! The work of solvers, as much at once as there are cores.

use std::collections::BTreeMap;
use std::mem::take;
use std::num::NonZero;
use std::sync::atomic::{AtomicUsize, Ordering};
use std::sync::mpsc::{channel, Sender};
use std::thread;
use std::time::Duration;

use super::conversation::replied;
use super::patience::Patience;
use super::{Event, Question, Replied, Solver};

/// Asks each solver about each question. Each of them has the limit; once one
/// has decided, another one gets at most twice as long as the first took, and a
/// second at least. Questions are begun in their order, and each is answered once,
/// in any order. Without a solver, or a thread to ask it, nothing happens. With the
/// first error of `watch` all solvers are ended.
pub fn ask<Q: Question, E>(
    questions: &[Q],
    solvers: &[Solver],
    limit: Duration,
    mut watch: impl FnMut(Event) -> Result<(), E>,
) -> Result<(), E> {
    let pool = Pool::new(questions, solvers, limit);
    let mut replies = Replies::new(questions.len(), solvers.len());
    let (sender, reports) = channel();
    thread::scope(|scope| {
        for _ in 0..pool.workers() {
            let sender = sender.clone();
            let worker = thread::Builder::new().spawn_scoped(scope, || pool.work(sender));
            if worker.is_err() {
                break;
            }
        }
        drop(sender);
        let events = reports.into_iter().filter_map(|report| match report {
            Report::Begun(job) => Some(job.begun(solvers)),
            Report::Done(job, replied) => replies.add(job, replied),
        });
        let watched = events.map(&mut watch).collect();
        pool.end();
        watched
    })
}

/// A question and a solver, by their places.
#[derive(Clone, Copy)]
struct Job {
    question: usize,
    solver: usize,
}

impl Job {
    fn begun(self, solvers: &[Solver]) -> Event {
        let question = self.question;
        let solver = solvers[self.solver].name();
        Event::Begun { question, solver }
    }
}

enum Report {
    Begun(Job),
    Done(Job, Replied),
}

struct Pool<'a, Q> {
    questions: &'a [Q],
    solvers: &'a [Solver],
    /// For each question.
    patience: Vec<Patience>,
    /// How many jobs are given out.
    given: AtomicUsize,
}

impl<'a, Q: Question> Pool<'a, Q> {
    fn new(questions: &'a [Q], solvers: &'a [Solver], limit: Duration) -> Pool<'a, Q> {
        let patience = questions.iter().map(|_| Patience::new(limit));
        Pool {
            questions,
            solvers,
            patience: patience.collect(),
            given: AtomicUsize::new(0),
        }
    }

    fn workers(&self) -> usize {
        let cores = thread::available_parallelism().map_or(1, NonZero::get);
        cores.min(self.jobs())
    }

    fn jobs(&self) -> usize {
        self.questions.len() * self.solvers.len()
    }

    /// Nobody wants to know more.
    fn end(&self) {
        self.patience.iter().for_each(Patience::end);
    }

    /// Does one job after another, until there are no more or nobody wants to
    /// know.
    fn work(&self, reports: Sender<Report>) {
        while let Some(job) = self.next() {
            let begun = reports.send(Report::Begun(job));
            let done = begun.and_then(|()| reports.send(Report::Done(job, self.replied(job))));
            if done.is_err() {
                return;
            }
        }
    }

    /// All solvers of a question before those of the next.
    fn next(&self) -> Option<Job> {
        let number = self.given.fetch_add(1, Ordering::Relaxed);
        let solvers = self.solvers.len();
        (number < self.jobs()).then(|| Job {
            question: number / solvers,
            solver: number % solvers,
        })
    }

    fn replied(&self, job: Job) -> Replied {
        let Job { question, solver } = job;
        replied(
            &self.solvers[solver],
            self.questions[question].script(),
            &self.patience[question],
        )
    }
}

/// The replies to questions that are not answered yet.
struct Replies {
    solvers: usize,
    /// For each question, by the solver's place.
    to: Vec<BTreeMap<usize, Replied>>,
}

impl Replies {
    fn new(questions: usize, solvers: usize) -> Replies {
        let to = vec![BTreeMap::new(); questions];
        Replies { solvers, to }
    }

    /// The question is answered with its last reply.
    fn add(&mut self, job: Job, replied: Replied) -> Option<Event> {
        let Job { question, solver } = job;
        let replies = &mut self.to[question];
        replies.insert(solver, replied);
        (replies.len() == self.solvers).then(|| Event::Answered {
            question,
            replies: take(replies).into_values().collect(),
        })
    }
}

#[cfg(test)]
mod tests {
    use std::path::PathBuf;

    use super::super::solver::Make;
    use super::*;

    #[test]
    fn all_solvers_are_asked_before_the_next_question() {
        let questions = vec![String::new(); 3];
        let solvers = Make::ALL.map(|make| Solver {
            make,
            program: PathBuf::new(),
        });
        let pool = Pool::new(&questions, &solvers, Duration::ZERO);
        let jobs = std::iter::from_fn(|| pool.next());
        let jobs: Vec<(usize, usize)> = jobs.map(|job| (job.question, job.solver)).collect();
        assert_eq!(jobs, [(0, 0), (0, 1), (1, 0), (1, 1), (2, 0), (2, 1)]);
        assert!(pool.next().is_none());
    }

    #[test]
    fn without_a_solver_nothing_happens() {
        let watch = |_| Err(());
        assert_eq!(ask(&[String::new()], &[], Duration::MAX, watch), Ok(()));
        let questions: [String; 0] = [];
        assert_eq!(ask(&questions, &[], Duration::ZERO, watch), Ok(()));
    }
}
