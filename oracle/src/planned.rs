//! What all generators of call scripts do in the same way. A generator plans a few lines at a time, by what the tables
//! hold just then. The lines are given out one by one, and each is run here as it goes, so that the tables are those of
//! whoever runs the script.

use crate::decompressor::Table;
use crate::script::Runner;
use std::collections::VecDeque;

/// Lines that are planned and not yet given out, and the tables as those given out have left them.
#[derive(Default)]
pub struct Planned {
    pub(crate) runner: Runner,
    lines: VecDeque<String>,
}

impl Planned {
    /// The decompressor's table, which some generators look at more than at anything else.
    pub(crate) fn table(&self) -> &Table {
        &self.runner.decompressor
    }
}

/// A generator: it has its own way to plan, and everything else from here.
pub trait Planner {
    fn planned(&mut self) -> &mut Planned;

    /// Pushes at least one line. None is left when this is called, so nothing planned earlier can still change the tables.
    fn plan(&mut self);

    fn push(&mut self, line: String) {
        self.planned().lines.push_back(line);
    }

    fn next_line(&mut self) -> String {
        if self.planned().lines.is_empty() {
            self.plan();
        }
        let planned = self.planned();
        let line = planned.lines.pop_front().unwrap_or_default();
        // What the line answers is of no interest here, only what it leaves.
        planned.runner.answer(&line, &mut String::new());
        line
    }
}
