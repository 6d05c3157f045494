//! The library: calls of its functions on a project that is lent.
use jolmuqter::{Judgement, Refused, Step, Table};

use crate::{
  lent::Lent,
  model::{Call, step_code, broken},
};

/// Both kinds of risk, joined.
fn joined(table: &Table, root: u32, risk: &mut [u32]) -> Result<usize, Refused> {
  let mut cycle = risk.to_vec();
  table.order_risk(root, risk)?;
  table.cycle_risk(root, &mut cycle)?;
  risk.iter_mut().zip(cycle).filter(|(_, mark)| *mark == 1).for_each(|(at, mark)| *at = mark);
  Ok(risk.iter().filter(|&&mark| mark == 1).count())
}

/// One line of a page, its bytes as numbers.
fn line(table: &Table, root: u32, number: u32, out: &mut [u32]) -> Result<usize, Refused> {
  let mut bytes = vec![200; out.len()];
  let answer = table.page_line(root, number, &mut bytes);
  out.iter_mut().zip(bytes).filter(|(_, byte)| *byte != 200).for_each(|(at, byte)| *at = u32::from(byte));
  answer
}

/// The library's answer to a call, as a count or the number of a refusal.
pub fn call(lent: &Lent, call: &Call, outputs: &mut [Vec<u32>]) -> Result<usize, u32> {
  let Lent { runtime, dynamic, bounds, columns, names } = lent;
  let table = Table { runtime: *runtime, dynamic: *dynamic, bounds, columns, names };
  let answer = match (call, outputs) {
    (Call::Sort, [numbers, sorted]) => table.sort_modules(numbers, sorted),
    (Call::Expected(root), [order]) => table.expected_order(*root, order),
    (Call::Actual(root), [order, hosts]) => table.actual_order(*root, order, hosts),
    (Call::Labels, [labels]) => table.labels(labels),
    (Call::Reach(chunk), []) => table.chunk_reach(*chunk),
    (Call::Risk(root), [risk]) => joined(&table, *root, risk),
    (Call::PlanFrom(seeds), [plan]) => table.plan_from_seeds(seeds, plan),
    (Call::Taken(seeds), [plan]) => table.plan_by_worklist(seeds, plan),
    (Call::Takings(seeds), [list, lengths]) => table.takings_from_seeds(seeds, list, lengths),
    (Call::Whole, [plan]) => table.plan(plan),
    (Call::Refusal, []) => table.refusal(),
    (Call::OrderRisk(root), [risk]) => table.order_risk(*root, risk),
    (Call::CycleRisk(root), [risk]) => table.cycle_risk(*root, risk),
    (Call::Entries(entries), [order]) => table.entries_order(entries, order),
    (Call::Grounds, [grounds]) => table.grounds(grounds),
    (Call::Circles, [paths, lengths]) => table.import_circles(paths, lengths),
    (Call::Arrangement, [members]) => table.sort_chunk_modules(members),
    (Call::Check(seeds, plan), []) => table.check_plan(seeds, plan).map(|judgement| match judgement {
      Judgement::Accepted => 0,
      Judgement::Broken(condition, module) => broken(condition, module),
    }),
    (Call::Line(root, number), [out]) => line(&table, *root, *number, out),
    (Call::Load(root, plan), [steps, hosts]) => table.load_run(*root, plan, steps, hosts),
    (Call::Step(root, number, plan), []) => table.load_step(*root, *number, plan).map(|step| match step {
      Step::Listed(module, host) => step_code(Some((module, host))),
      Step::Done => step_code(None),
    }),
    _ => unreachable!("outputs that {call:?} doesn't have"),
  };
  answer.map_err(|Refused(number)| number)
}
