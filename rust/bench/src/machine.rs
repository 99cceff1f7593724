//! Runs of scripts. The values that a script changes are put back before each call, for all
//! but the second implementation, which leaves what it is lent.

use std::hint::black_box;

use leqwarti::entries;
use leqwarti::{MARKS, VARIABLES};

use crate::contests::add_up;
use crate::runs::Running;
use crate::timing::{Contestants, Stopwatch};

/// What is lent: a word of the stack for each row and for each that is gone on with.
struct Buffers {
    stack: Vec<u32>,
    variables: Vec<i64>,
    marks: Vec<i64>,
}

impl Buffers {
    fn new(running: &Running, height: usize) -> Buffers {
        let mut buffers = Buffers {
            stack: vec![0; running.table.len() / 4 + height],
            variables: vec![0; VARIABLES],
            marks: vec![0; MARKS],
        };
        buffers.put_start(running);
        buffers
    }

    fn put_start(&mut self, running: &Running) {
        for &(variable, value) in &running.start {
            self.variables[variable] = value;
        }
    }

    /// The script's statement, to be gone on with.
    fn put_statement(&mut self, running: &Running) {
        let statement = running.table[running.table.len() - 2];
        self.stack[0] = statement as u32;
    }

    fn lent(&mut self) -> entries::Lent<'_> {
        entries::Lent {
            stack: &mut self.stack,
            variables: &mut self.variables,
            marks: &mut self.marks,
        }
    }
}

/// More steps than any script takes.
const MOST_STEPS: u64 = 1 << 20;

/// A whole run. The floor adds up the words of the table and clears the stack.
pub fn time_running(watch: &Stopwatch, running: &Running) {
    let expected = Buffers::new(running, 0).run_by_second(running, MOST_STEPS);
    assert_eq!(expected.number, 0, "{}: a run that ends", running.name);
    let name = format!("{} ({} rows)", running.name, running.table.len() / 4);
    run_with_limit(running, MOST_STEPS, |contestants| {
        watch.print_steps(&name, expected.steps, contestants);
    });
}

/// A call that does no step: what the check and the clearing cost.
pub fn time_no_step(watch: &Stopwatch, running: &Running) {
    let name = format!(
        "run, limit 0: {} ({} rows)",
        running.name,
        running.table.len() / 4
    );
    run_with_limit(running, 0, |contestants| {
        watch.print_times(&name, contestants)
    });
}

/// The first step, by a call that goes on.
pub fn time_watching(watch: &Stopwatch, running: &Running) {
    let buffers = || Buffers::new(running, 1);
    let (mut proved, mut peer, mut second, mut floor) =
        (buffers(), buffers(), buffers(), buffers());
    second.put_statement(running);
    let table = &running.table[..];
    let name = format!(
        "go on, limit 1: {} ({} rows)",
        running.name,
        table.len() / 4
    );
    watch.print_times(
        &name,
        Contestants {
            proved: &mut || {
                proved.put_start(running);
                proved.put_statement(running);
                black_box(entries::go_on(black_box(table), &mut proved.lent(), 1, 1));
            },
            peer: &mut || {
                peer.put_start(running);
                peer.put_statement(running);
                let Buffers {
                    stack,
                    variables,
                    marks,
                } = &mut peer;
                black_box(peer::go_on(black_box(table), stack, 1, variables, marks, 1));
            },
            second: &mut || {
                let Buffers {
                    stack,
                    variables,
                    marks,
                } = &second;
                let table = black_box(table);
                black_box(reference::go_on(table, stack, 1, variables, marks, 1));
            },
            floor: &mut || {
                add_up(table);
                black_box(&mut floor.stack).fill(0);
            },
        },
    );
}

fn run_with_limit(running: &Running, limit: u64, print: impl FnOnce(Contestants)) {
    let buffers = || Buffers::new(running, 0);
    let (mut proved, mut peer, second, mut floor) = (buffers(), buffers(), buffers(), buffers());
    let table = &running.table[..];
    print(Contestants {
        proved: &mut || {
            proved.put_start(running);
            black_box(entries::run(black_box(table), &mut proved.lent(), limit));
        },
        peer: &mut || {
            peer.put_start(running);
            let Buffers {
                stack,
                variables,
                marks,
            } = &mut peer;
            black_box(peer::run(black_box(table), stack, variables, marks, limit));
        },
        second: &mut || {
            black_box(second.run_by_second(running, limit));
        },
        floor: &mut || {
            add_up(table);
            black_box(&mut floor.stack).fill(0);
        },
    });
}

impl Buffers {
    fn run_by_second(&self, running: &Running, limit: u64) -> reference::Watched {
        let table = black_box(&running.table);
        reference::watch(table, &self.stack, &self.variables, &self.marks, limit)
    }
}
