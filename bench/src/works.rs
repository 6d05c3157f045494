//! The works: what the original and the library do on the same project.
use std::time::Duration;

use compare::{lent::Lent, model::Call};
use oracle::{Original, carriers};
use project::{Project, column::*};

use crate::clock::{Pair, Time, alone, in_turns, timed};

/// A project, ready for both sides: neither the carriers nor the slices are made while the clock runs.
pub struct Ready<'p> {
  p: &'p Project,
  original: Original,
  lent: Lent,
}

/// Places enough for the circles of every shape.
const CIRCLE_PLACES: usize = 1 << 20;

fn outputs(p: &Project) -> [Vec<u32>; 2] {
  let places = p.modules().max(p[MEMBER].len());
  [vec![0; places], vec![0; places]]
}

/// The members of a set of marks.
fn members(marks: &[u32]) -> Vec<u32> {
  (0..marks.len() as u32).filter(|&at| marks[at as usize] == 1).collect()
}

impl<'p> Ready<'p> {
  pub fn of(p: &'p Project) -> Self {
    assert!(!p.tied());
    Self { p, original: Original::of(p), lent: Lent::of(p) }
  }

  /// The library's call, with its tests 1 to 4 and every output written.
  fn ours(&self, call: &Call) -> Duration {
    let mut lists = outputs(self.p);
    let count = compare::refusal::places(self.p, call).len();
    timed(|| compare::library::call(&self.lent, call, &mut lists[..count]).expect("accepted"))
  }

  /// The whole analysis. The two plans are compared first.
  pub fn whole(&self) -> Pair {
    let mut plan = outputs(self.p);
    let count = compare::library::call(&self.lent, &Call::Whole, &mut plan[..1]).expect("accepted");
    let right = self.original.plan();
    assert_eq!((right.len(), right), (count, members(&plan[0])));
    in_turns(|| timed(|| self.original.bare_plan()), || self.ours(&Call::Whole))
  }

  /// The circles, which the original finds while it sorts.
  fn circles(&self) -> Duration {
    let mut lists = [vec![0; CIRCLE_PLACES], vec![0; CIRCLE_PLACES]];
    timed(|| compare::library::call(&self.lent, &Call::Circles, &mut lists).expect("accepted"))
  }

  /// The tests 1 to 4 alone, which the original doesn't have.
  pub fn tests(&self) -> Time {
    alone(|| self.ours(&Call::Refusal))
  }

  /// The arrangement of the members, of a project in which no two of a chunk tie. The two sides are compared first.
  pub fn arrangement(&self) -> Pair {
    let mut members = outputs(self.p);
    let count = compare::library::call(&self.lent, &Call::Arrangement, &mut members[..1]).expect("accepted");
    assert!(!self.original.open_chunks().contains(&true));
    assert_eq!(self.original.members().concat(), members[0][..count]);
    in_turns(|| timed(self.original.bare_arrangement(self.p)), || self.ours(&Call::Arrangement))
  }

  /// Forty entries walked together, and forty single calls: the modules after the first. The two lists of the first are compared.
  pub fn forty(&self) -> [(&'static str, Pair); 2] {
    let roots: Vec<u32> = (1..=40).collect();
    let rows = carriers::module_rows(&roots);
    let together = Call::Entries(roots.clone());
    let mut order = outputs(self.p);
    let count = compare::library::call(&self.lent, &together, &mut order[..1]).expect("accepted");
    assert_eq!(self.original.entries_together(&roots), order[0][..count]);
    let original = &self.original;
    let theirs = || roots.iter().map(|&root| timed(|| original.bare_expected(root))).sum();
    let ours = || roots.iter().map(|&root| self.ours(&Call::Expected(root))).sum();
    [
      ("forty entries together", in_turns(|| timed(|| original.bare_together(&rows)), || self.ours(&together))),
      ("forty single calls", in_turns(theirs, ours)),
    ]
  }

  /// Each operation by itself, with the first entry and its chunk.
  pub fn single(&self) -> Vec<(&'static str, Pair)> {
    let (root, chunk) = (self.p[ENTRY][0], self.p[ENTRY_CHUNK][0]);
    let options = carriers::options(self.p);
    let sort = || {
      let mut stage = carriers::link_stage(self.p, &options);
      timed(|| stage.sort())
    };
    let original = &self.original;
    [
      ("sort", in_turns(sort, || self.ours(&Call::Sort))),
      ("sort and circles", in_turns(sort, || self.circles())),
      (
        "expected order",
        in_turns(|| timed(|| original.bare_expected(root)), || self.ours(&Call::Expected(root))),
      ),
      (
        "actual order",
        in_turns(|| timed(|| original.bare_actual(root)), || self.ours(&Call::Actual(root))),
      ),
      ("labels", in_turns(|| timed(|| original.bare_cycles()), || self.ours(&Call::Labels))),
      (
        "chunk reach",
        in_turns(|| timed(|| original.bare_reach(chunk)), || self.ours(&Call::Reach(chunk))),
      ),
      ("both risks", in_turns(|| timed(|| original.bare_risk(root)), || self.ours(&Call::Risk(root)))),
    ]
    .into_iter()
    .chain(self.plans())
    .collect()
  }

  /// The plan from the seed rows, by rounds and by a worklist.
  pub fn plans(&self) -> [(&'static str, Pair); 2] {
    let seeds = carriers::module_rows(&self.p[SEED]);
    let plan = |call: Call| in_turns(|| timed(|| self.original.bare_plan_from(&seeds)), || self.ours(&call));
    [
      ("plan from the seed rows", plan(Call::PlanFrom(self.p[SEED].clone()))),
      ("the same by a worklist", plan(Call::Taken(self.p[SEED].clone()))),
    ]
  }
}
