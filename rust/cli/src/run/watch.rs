//! Runs of a script from a start.

use leqwarti::{Machine, Stop};

use super::{End, Scene, Start, Step, Trace};

/// The most steps that are done before the first line is told.
const AHEAD: u64 = 1_000_000;

impl<'a> Scene<'a> {
    /// A run of so many steps at most, as lines: that the start does not meet the
    /// precondition, where it does not; the start; each step; and the end. The first
    /// error of `tell` ends it.
    pub fn watch<E>(
        &'a self,
        start: &Start,
        limit: u64,
        tell: &mut dyn FnMut(&str) -> Result<(), E>,
    ) -> Result<End, E> {
        tell(&self.head(start))?;
        let width = self.number_width(start, limit);
        let end = self.each_step(start, limit, &mut |number, step| {
            tell(&self.line(number, width, step))
        })?;
        tell(&self.end(&end))?;
        Ok(end)
    }

    /// What stands before the steps.
    pub fn head(&'a self, start: &Start) -> String {
        let warning = self.warning(&self.begun(start).state());
        format!("{warning}{}", self.start(start))
    }

    /// The end of a run alone.
    pub fn last(&'a self, start: &Start, limit: u64) -> End {
        let mut machine = self.machine(start);
        let stop = machine.run(limit);
        End::of(self.table, &Trace::start(self.table, machine), stop)
    }

    /// All steps of a run, and its end.
    pub fn steps(&'a self, start: &Start, limit: u64) -> (Vec<Step>, End) {
        let mut steps = Vec::new();
        let end = self.each_step(start, limit, &mut |_, step| {
            steps.push(*step);
            Ok::<(), std::convert::Infallible>(())
        });
        let Ok(end) = end;
        (steps, end)
    }

    /// Takes each step with its number, from 1.
    fn each_step<E>(
        &'a self,
        start: &Start,
        limit: u64,
        take: &mut dyn FnMut(u64, &Step) -> Result<(), E>,
    ) -> Result<End, E> {
        let mut trace = self.begun(start);
        let stop = loop {
            if let (Some(row), true) = (trace.machine().due(), trace.machine().steps() == limit) {
                break Stop::LimitSpent { row };
            }
            match trace.step() {
                Ok(step) => take(trace.machine().steps(), &step)?,
                Err(stop) => break stop,
            }
        };
        Ok(End::of(self.table, &trace, stop))
    }

    fn begun(&'a self, start: &Start) -> Trace<'a> {
        Trace::start(self.table, self.machine(start))
    }

    fn machine(&self, start: &Start) -> Machine<'a> {
        let machine = Machine::start(self.table.words(), start.values.iter().copied());
        machine.expect("the table is accepted")
    }

    /// How wide the number of a run's last step is; of a long run's, how wide it may get,
    /// since nobody is to wait for its end before its first line.
    fn number_width(&self, start: &Start, limit: u64) -> usize {
        let mut machine = self.machine(start);
        let most = match machine.run(limit.min(AHEAD)) {
            Stop::LimitSpent { .. } => limit,
            _ => machine.steps(),
        };
        most.to_string().len()
    }
}
