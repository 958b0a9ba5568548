//! A trace played on a machine, cycle by cycle: its records, and then idle cycles until nothing is pending.

use crate::machine::{Cycle, Machine};
use std::io::BufRead;
use trace_text::{Fault, Op, Trace};

/// A trace and the machine that plays it.
pub struct Run<R> {
    trace: Trace<R>,
    /// The machine.
    pub machine: Machine,
    /// How many records were played.
    pub records: u64,
    ended: bool,
}

impl<R: BufRead> Run<R> {
    /// Reads the trace's shape and clears a machine of it.
    pub fn new(from: R) -> Result<Run<R>, Fault> {
        let trace = Trace::open(from)?;
        let machine = Machine::tree(trace.order(), trace.levels()).expect("a shape that traces have");
        Ok(Run { trace, machine, records: 0, ended: false })
    }

    /// The same records on a cluster heap of this shape; the trace's own shape is not looked at.
    pub fn on_heap(from: R, places: u32, levels: u32) -> Result<Run<R>, String> {
        let trace = Trace::open(from).map_err(|what| what.to_string())?;
        let machine = Machine::heap(places, levels).map_err(|_| {
            format!("places {places}, levels {levels}: a heap has 2 to 16 places a node and at most 5,460 in all")
        })?;
        Ok(Run { trace, machine, records: 0, ended: false })
    }

    /// The same records on lines of this shape.
    pub fn on_lines(from: R, kind: u32, lines: u32, places: u32) -> Result<Run<R>, String> {
        let trace = Trace::open(from).map_err(|what| what.to_string())?;
        let machine = Machine::lines(kind, lines, places).map_err(|_| {
            format!(
                "kind {kind}, lines {lines}, places {places}: the kind is 1 or 2, the lines are a power of two up to 512, \
                 and a line has 1 to 1,024 places"
            )
        })?;
        Ok(Run { trace, machine, records: 0, ended: false })
    }

    /// Whether the trace's records have lengths.
    pub fn has_lengths(&self) -> bool {
        self.trace.has_lengths()
    }

    /// Whether all records have been played.
    pub fn ended(&self) -> bool {
        self.ended
    }

    /// What the coming cycle is asked: the next record, and idle behind the last one.
    pub fn next_op(&mut self) -> Result<Op, Fault> {
        if !self.ended {
            match self.trace.next_op()? {
                Some(op) => {
                    self.records += 1;
                    return Ok(op);
                }
                None => self.ended = true,
            }
        }
        Ok(Op::Idle)
    }

    /// The next cycle; none once all records are played and nothing is pending.
    pub fn next_cycle(&mut self) -> Result<Option<&Cycle>, Fault> {
        let op = self.next_op()?;
        if self.ended && !self.machine.pending() {
            return Ok(None);
        }
        Ok(Some(self.machine.run(op)))
    }
}
