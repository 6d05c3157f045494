//! Compares one project: the original with the model, and the library with the model on the same questions.
use oracle::Original;
use project::{MARK, Project, column::*};

use crate::{
  lent::Lent,
  model::{Call, Given, Model, Set, first_broken, members, own_hosts, planned, set_of},
  random::Random,
  refusal,
};

/// What is judged: the answer to a call, as a count or the number of a refusal, and what it leaves in the outputs.
pub type Subject = fn(&Lent, &Call, &mut [Vec<u32>]) -> Result<usize, u32>;

/// How much was compared.
#[derive(Default, Clone, Debug)]
pub struct Tally {
  pub projects: usize,
  /// Accepted, and refused by 1 to 4 and 10.
  pub refused: [usize; 11],
  pub tied: usize,
  /// Accepted projects with names, and those of them with a chunk in which two modules tie.
  pub named: usize,
  pub open: usize,
  /// Results of the original that were compared.
  pub results: usize,
  /// Calls of the library that were compared: accepted, and refused by each number.
  pub calls: [usize; 11],
  /// Accepted projects whose risks and seed rows each rule adds to, and that take more than one round.
  pub by_rule: [usize; 4],
  pub later_rounds: usize,
  pub with_hosts: usize,
  pub with_risk: usize,
  pub with_cycles: usize,
}

impl std::fmt::Display for Tally {
  fn fmt(&self, f: &mut std::fmt::Formatter<'_>) -> std::fmt::Result {
    let [accepted, one, two, three, four, .., ten] = self.refused;
    let [i, ii, iii, iv] = self.by_rule;
    writeln!(f, "{} projects: {accepted} accepted, {} of them with ties;", self.projects, self.tied)?;
    writeln!(f, "  {} accepted ones with names, {} of them with a chunk in which two modules tie;", self.named, self.open)?;
    writeln!(f, "  refused by 1: {one}, by 2: {two}, by 3: {three}, by 4: {four}, by 10: {ten}")?;
    writeln!(f, "  accepted ones with a cyclic chunk {}, a host {}, a risk {};", self.with_cycles, self.with_hosts, self.with_risk)?;
    writeln!(f, "  risks and seeds added to by (i) {i}, (ii) {ii}, (iii) {iii}, (iv) {iv}, in later rounds {}", self.later_rounds)?;
    writeln!(f, "{} results of the original compared with document 01 in plain Rust", self.results)?;
    let all: usize = self.calls.iter().sum();
    writeln!(f, "{all} calls of the library compared; accepted and refused by 1 to 10: {:?}", self.calls)
  }
}

/// Outputs of a call are lent longer than they must be, and filled with numbers that no call writes.
const FILLER: u32 = 0xABCD_0000;

#[derive(Default)]
pub struct Judge {
  pub subject: Option<Subject>,
  /// One turn in eight the outputs are also lent just long enough, and too short, and the bounds don't fit.
  pub turn: usize,
  pub tally: Tally,
}

/// What differs first, in words.
type Difference = Option<String>;

fn differ<T: PartialEq + std::fmt::Debug>(what: &str, right: &T, other: &T, who: &str) -> Difference {
  (right != other).then(|| format!("{what}: document 01 says {right:?}, {who} says {other:?}"))
}

/// Some sets of modules, the same for every project of this size.
fn sets(n: usize) -> Vec<Vec<u32>> {
  let mut r = Random::new(n as u64);
  let mut sets = vec![Vec::new()];
  if n <= 8 {
    sets.extend((0..n as u32).map(|m| vec![m]));
  }
  for _ in 0..3 {
    let size = r.from_to(1, n.min(4));
    sets.push((0..size).map(|_| r.row(n)).collect());
  }
  sets
}

/// The roots whose expected order is asked for.
fn roots(n: usize) -> Vec<u32> {
  let mut r = Random::new(n as u64);
  if n <= 16 { (0..n as u32).collect() } else { (0..16).map(|_| r.row(n)).collect() }
}

/// The lists of entries that are walked together: the project's own, and modules rising and falling.
pub fn entry_lists(p: &Project) -> [Vec<u32>; 3] {
  let rising = roots(p.modules());
  let falling = rising.iter().rev().copied().collect();
  [p[ENTRY].clone(), rising, falling]
}

impl Judge {
  /// The first difference that a project shows.
  pub fn differs(&mut self, p: &Project) -> Difference {
    self.tally.projects += 1;
    let number = refusal::of_project(p);
    self.tally.refused[number as usize] += 1;
    if number != 0 {
      return self.subject_differs(p, None);
    }
    let model = Model::of(p);
    self.original_differs(p, &model).or_else(|| self.subject_differs(p, Some(&model)))
  }

  fn original_differs(&mut self, p: &Project, model: &Model) -> Difference {
    let tied = p.tied();
    self.tally.tied += usize::from(tied);
    let original = Original::of(p);
    self.tally.named += usize::from(p.is_named());
    self.tally.open += usize::from(original.open_chunks().contains(&true));
    let (difference, results) = against_original(p, model, &original, tied, self.checks(p));
    self.tally.results += results;
    self.note(p, model);
    difference
  }

  /// Whether plans made elsewhere are checked: of the smallest projects, in one turn of eight.
  fn checks(&self, p: &Project) -> bool {
    p.modules() > 4 || self.turn % 8 == 0
  }

  /// What a project is good for.
  fn note(&mut self, p: &Project, model: &Model) {
    let analysed = model.analysed();
    let tally = &mut self.tally;
    tally.with_cycles += usize::from(model.labels().iter().any(|&label| label != MARK));
    if p.modules() > 64 {
      return;
    }
    tally.with_hosts +=
      usize::from(analysed.iter().any(|&entry| model.actual(entry).1.iter().any(|&h| h != MARK)));
    let mut seeds = p[SEED].clone();
    for &entry in &analysed {
      seeds.extend(members(&model.risk(entry)));
    }
    tally.with_risk += usize::from(seeds.len() > p[SEED].len());
    let mut planned = set_of(p.modules(), &seeds);
    for round in 0.. {
      let before = planned.clone();
      for (rule, asked) in model.asked(&before).iter().enumerate() {
        let new: Vec<u32> =
          members(asked).into_iter().filter(|&m| !before[m as usize]).collect();
        tally.by_rule[rule] += usize::from(round == 0 && !new.is_empty());
        new.iter().for_each(|&m| planned[m as usize] = true);
      }
      if planned == before {
        break;
      }
      tally.later_rounds += usize::from(round == 1);
    }
  }

  /// Each operation of the subject.
  fn subject_differs(&mut self, p: &Project, model: Option<&Model>) -> Difference {
    let subject = self.subject?;
    let lent = Lent::of(p);
    let thorough = self.turn % 8 == 0;
    for call in calls(p, model, self.checks(p)) {
      let given = model.and_then(|model| {
        (refusal::of_call(p, &call, &[]) == 0).then(|| model.give(&call))
      });
      for room in rooms(p, &call, thorough) {
        let number = refusal::of_call(p, &call, &room);
        let right = if number == 0 { given.as_ref().ok_or(0) } else { Err(number) };
        self.tally.calls[number as usize] += 1;
        let difference = call_differs(subject, &lent, &call, &room, right, model);
        if difference.is_some() {
          return difference;
        }
      }
    }
    if thorough { self.unfit_differs(p, subject, &lent.unfit(self.turn / 8, self.turn / 80)) } else { None }
  }

  /// Each operation with bounds that don't fit.
  fn unfit_differs(&mut self, p: &Project, subject: Subject, lent: &Lent) -> Difference {
    for call in one_call_each(p.modules()) {
      let room = roomy(&refusal::places(p, &call), 3);
      self.tally.calls[1] += 1;
      if let Some(words) = call_differs(subject, lent, &call, &room, Err(1), None) {
        let values = lent.columns.len();
        return Some(format!("bounds {:?} with {values} values: {words}", lent.bounds));
      }
    }
    None
  }
}

/// Lengths of a call's outputs: longer than they must be; also just long enough, and each one too short.
fn rooms(p: &Project, call: &Call, thorough: bool) -> Vec<Vec<usize>> {
  let places = refusal::places(p, call);
  let mut rooms = vec![roomy(&places, 3)];
  if !places.is_empty() && thorough {
    rooms.push(places.clone());
    for short in 0..places.len() {
      let mut room = places.clone();
      room[short] = room[short].saturating_sub(1);
      rooms.push(room);
    }
  }
  rooms
}

/// Some places more in each output.
pub fn roomy(places: &[usize], more: usize) -> Vec<usize> {
  places.iter().map(|places| places + more).collect()
}

/// Each kind of risk, and both joined.
pub fn risks(root: u32) -> [Call; 3] {
  [Call::OrderRisk(root), Call::CycleRisk(root), Call::Risk(root)]
}

/// A call of each operation, of a project with so many modules.
pub fn one_call_each(modules: usize) -> [Call; 21] {
  [
    Call::Sort,
    Call::Expected(1),
    Call::Actual(1),
    Call::Labels,
    Call::Reach(0),
    Call::Risk(1),
    Call::PlanFrom(vec![1]),
    Call::Taken(vec![1]),
    Call::Takings(vec![1]),
    Call::Whole,
    Call::Refusal,
    Call::OrderRisk(1),
    Call::CycleRisk(1),
    Call::Entries(vec![1]),
    Call::Grounds,
    Call::Circles,
    Call::Check(vec![1], vec![0; modules]),
    Call::Arrangement,
    Call::Load(1, vec![0; modules]),
    Call::Step(1, 0, vec![0; modules]),
    Call::Line(1, 0),
  ]
}

/// Some plans to be tried, whatever they hold: none, the whole analysis', every module, and some sets.
fn trials(p: &Project, model: &Model) -> Vec<Vec<u32>> {
  let n = p.modules();
  let some = sets(n).into_iter().rev().take(2).map(|set| marks(&set_of(n, &set)));
  [vec![0; n], marks(&model.plan()), vec![1; n]].into_iter().chain(some).collect()
}

/// A set as the marks of a plan.
pub fn marks(set: &Set) -> Vec<u32> {
  set.iter().map(|&is| u32::from(is)).collect()
}

/// Plans to be checked: for three sets of seeds the plan from them, that with a module less and with one more or less, the seeds alone and another
/// set; all eligible modules; no module and every module with every seed; and what has the wrong form.
fn checks(p: &Project, model: &Model) -> Vec<Call> {
  let n = p.modules();
  let sets = sets(n);
  let some = sets.len() - 3;
  let mut calls = Vec::new();
  for (at, seeds) in sets[some..].iter().enumerate() {
    let plan = model.plan_from(seeds);
    let mut plans = vec![plan.clone(), set_of(n, seeds), set_of(n, &sets[at])];
    let other = (at * 7 % n) as u32;
    plans.extend(members(&plan).into_iter().take(2).chain([other]).map(|m| {
      let mut set = plan.clone();
      set[m as usize] = !set[m as usize];
      set
    }));
    calls.extend(plans.iter().map(|set| Call::Check(seeds.clone(), marks(set))));
  }
  calls.push(Call::Check(vec![0], marks(&set_of(n, &model.eligible()))));
  let all: Vec<u32> = (0..n as u32).collect();
  calls.extend([0, 1].map(|mark| Call::Check(all.clone(), vec![mark; n])));
  for plan in [vec![], vec![0; n - 1], vec![0; n + 1], vec![2; n], vec![MARK; n]] {
    calls.push(Call::Check(vec![0], plan));
  }
  calls.push(Call::Check(vec![n as u32], vec![2]));
  calls
}

/// What is said of a plan by what the original calls eligible and by what each of its rules asks for with that plan.
pub fn check_by_the_original(original: &Original, seeds: &[u32], plan: &[u32]) -> usize {
  let planned: Vec<u32> = (0..).zip(plan).filter(|&(_, &mark)| mark == 1).map(|(m, _)| m).collect();
  let eligible = original.eligible();
  let wrong = planned.iter().copied().filter(|m| !eligible.contains(m)).collect();
  let lacking = seeds.iter().copied().filter(|m| eligible.contains(m) && !planned.contains(m)).collect();
  let mut by_condition = vec![wrong, lacking];
  by_condition.extend(original.asked(&planned));
  first_broken(by_condition)
}

fn against_original(
  p: &Project,
  model: &Model,
  original: &Original,
  tied: bool,
  with_checks: bool,
) -> (Difference, usize) {
  let mut results = 0;
  let mut first = None;
  let mut check = |what: &dyn Fn() -> String, ours: Vec<u32>, theirs: Vec<u32>| {
    results += 1;
    if first.is_none() && ours != theirs {
      first = differ(&what(), &ours, &theirs, "rolldown");
    }
  };
  let (numbers, sorted) = model.numbers_and_sorted();
  check(&|| "numbers".into(), numbers, original.numbers());
  check(&|| "sorted".into(), sorted, original.sorted());
  // The original's circles have no order of their own. Lengths before paths tell lists of paths apart.
  let flat = |paths: Vec<Vec<u32>>| -> Vec<u32> {
    paths.iter().map(|path| path.len() as u32).chain(paths.iter().flatten().copied()).collect()
  };
  let mut circles = model.circles();
  circles.sort_unstable();
  check(&|| "circles".into(), flat(circles), flat(oracle::circles(p)));
  check(&|| "sensitive".into(), model.sensitive(), original.sensitive());
  check(&|| "grounds".into(), model.grounds(), original.grounds());
  check(&|| "eligible".into(), model.eligible(), original.eligible());
  for root in roots(p.modules()) {
    check(&|| format!("expected {root}"), model.expected(root), original.expected(root));
  }
  for list in entry_lists(p) {
    check(&|| format!("expected {list:?}"), model.entries(&list), original.entries_together(&list));
  }
  let listed = set_of(p.modules(), &model.entries(&p[ENTRY]));
  let wrapped = model.eligible().into_iter().filter(|&m| listed[m as usize]).collect();
  check(&|| "wrap-all set".into(), wrapped, original.wrap_all());
  check(&|| "labels".into(), model.labels(), original.labels());
  let reaches = (0..p.chunks() as u32).map(|chunk| u32::from(model.reaches(chunk))).collect();
  let theirs = original.reaches().into_iter().map(u32::from).collect();
  check(&|| "reach".into(), reaches, theirs);

  if p.is_named() {
    for (chunk, (theirs, open)) in original.members().into_iter().zip(original.open_chunks()).enumerate() {
      if !open {
        check(&|| format!("members of chunk {chunk}"), model.arranged()[chunk].clone(), theirs);
      }
    }
  }

  let entries = original.entries();
  let open = entries.iter().any(|entry| entry.open);
  let analysed: Vec<u32> = entries.iter().map(|entry| entry.root).collect();
  check(&|| "analysed entries".into(), model.analysed(), analysed);
  for entry in entries {
    let root = entry.root;
    check(&|| format!("expected {root}"), model.expected(root), entry.expected);
    check(&|| format!("cycle {root}"), members(&model.cycle_risk(root)), entry.cycle);
    if !tied && !entry.open {
      let (order, hosts) = model.actual(root);
      check(&|| format!("actual {root}"), order, entry.actual);
      check(&|| format!("hosts {root}"), hosts, entry.hosts);
      check(&|| format!("early {root}"), members(&model.order_risk(root)), entry.early);
      check(&|| format!("both risks of {root}"), members(&model.risk(root)), entry.risk);
    }
  }
  if !tied && !open {
    check(&|| "plan".into(), members(&model.plan()), original.plan());
  }
  for set in sets(p.modules()) {
    let plan = members(&model.plan_from(&set));
    check(&|| format!("plan from {set:?}"), plan, original.plan_from(&set));
    let planned = set_of(p.modules(), &set);
    let outside = |asked: Set| -> Vec<u32> {
      members(&asked).into_iter().filter(|&m| !planned[m as usize]).collect()
    };
    let ours = model.asked(&planned).map(outside);
    for (rule, (ours, theirs)) in ours.into_iter().zip(original.asked(&set)).enumerate() {
      check(&|| format!("rule {} with {set:?} planned", rule + 1), ours, theirs);
    }
  }
  for call in with_checks.then(|| checks(p, model)).into_iter().flatten() {
    let Call::Check(seeds, plan) = &call else { continue };
    if refusal::formed(p, &call) && seeds.iter().all(|&seed| (seed as usize) < p.modules()) {
      let (ours, theirs) = (model.check(seeds, plan), check_by_the_original(original, seeds, plan));
      check(&|| format!("{call:?}"), vec![ours as u32], vec![theirs as u32]);
    }
  }
  for plan in trials(p, model) {
    for entry in Original::of(&planned(p, &plan)).entries() {
      if !tied && !entry.open {
        let (root, hosts) = (entry.root, own_hosts(&entry.actual, &entry.hosts));
        check(&|| format!("load of {root} with {plan:?}"), model.tried(root, &plan).0, entry.actual);
        check(&|| format!("hosts of that load of {root}"), model.tried(root, &plan).1, hosts);
      }
    }
  }
  (first, results)
}

/// The calls that are tried: fitting arguments and some that don't fit.
fn calls(p: &Project, model: Option<&Model>, with_checks: bool) -> Vec<Call> {
  let (n, c) = (p.modules() as u32, p.chunks() as u32);
  let mut calls = vec![Call::Sort, Call::Circles, Call::Labels, Call::Whole, Call::Refusal, Call::Grounds, Call::Arrangement];
  if model.is_none() {
    for root in [0, n, MARK] {
      calls.extend([Call::Expected(root), Call::Actual(root), Call::Line(root, 0)]);
      calls.extend(risks(root));
    }
    calls.extend([Call::Reach(0), Call::Reach(c)]);
    calls.extend([Call::PlanFrom(vec![]), Call::PlanFrom(vec![0]), Call::PlanFrom(vec![n])]);
    calls.extend([Call::Entries(vec![]), Call::Entries(vec![0]), Call::Entries(vec![n])]);
    calls.extend([Call::Check(vec![], vec![0; n as usize]), Call::Check(vec![n], vec![2])]);
    calls.extend([Call::Taken(vec![]), Call::Taken(vec![0]), Call::Taken(vec![n])]);
    calls.extend([Call::Load(0, vec![2]), Call::Step(n, 0, vec![2])]);
    return calls;
  }
  for root in roots(p.modules()).into_iter().chain([n, MARK]) {
    calls.push(Call::Expected(root));
  }
  calls.extend(entry_lists(p).into_iter().chain(sets(p.modules())).map(Call::Entries));
  for past in [n, MARK] {
    calls.extend([Call::Entries(vec![0, past]), Call::Entries(vec![past, n - 1])]);
  }
  let mut entries: Vec<u32> = p[ENTRY].iter().copied().take(16).collect();
  entries.extend([0, n - 1, n, MARK]);
  for &root in &entries {
    calls.push(Call::Actual(root));
    calls.extend([0, 1, n - 1, MARK].map(|number| Call::Line(root, number)));
    calls.extend(risks(root));
  }
  for plan in model.into_iter().flat_map(|model| trials(p, model)) {
    calls.extend(entries.iter().map(|&root| Call::Load(root, plan.clone())));
    let root = entries[0];
    calls.extend([0, 1, n / 2, n - 1, n, MARK].map(|number| Call::Step(root, number, plan.clone())));
  }
  for plan in [vec![], vec![0; n as usize + 1], vec![2; n as usize]] {
    calls.extend([Call::Load(entries[0], plan.clone()), Call::Step(entries[0], 0, plan)]);
  }
  for chunk in (0..c.min(64)).chain([c.saturating_sub(1), c, MARK]) {
    calls.push(Call::Reach(chunk));
  }
  calls.extend(sets(p.modules()).into_iter().map(Call::PlanFrom));
  calls.extend(model.filter(|_| with_checks).into_iter().flat_map(|model| checks(p, model)));
  for past in [n, MARK] {
    calls.push(Call::PlanFrom(vec![0, past]));
  }
  if p.tied() || n % 64 == 5 {
    calls.push(Call::PlanFrom(vec![0; 16_384]));
    calls.push(Call::PlanFrom(vec![0; 16_385]));
    calls.push(Call::PlanFrom(vec![n; 16_385]));
    calls.push(Call::Entries(vec![0; 16_385]));
    calls.extend([16_384, 16_385].map(|many| Call::Check(vec![0; many], vec![0; n as usize])));
  }
  let taken: Vec<Call> = calls.iter().flat_map(Call::taken).collect();
  calls.extend(taken);
  calls
}

/// What is right is given, or refused by a number.
fn call_differs(
  subject: Subject,
  lent: &Lent,
  call: &Call,
  room: &[usize],
  right: Result<&Given, u32>,
  model: Option<&Model>,
) -> Difference {
  let fill = |length: &usize| (0..*length as u32).map(|at| FILLER + at).collect::<Vec<u32>>();
  let mut outputs: Vec<Vec<u32>> = room.iter().map(fill).collect();
  let mut right_outputs = outputs.clone();
  let answer = subject(lent, call, &mut outputs);
  // The order of a worklist is free within what one taking lists.
  let along = match (call, model) {
    (Call::Takings(seeds), Some(model)) => right.ok().map(|_| model.takings(seeds, &outputs[0])),
    _ => None,
  };
  let right = along.as_ref().map_or(right, Ok);
  if let Ok(given) = right {
    for (output, list) in right_outputs.iter_mut().zip(&given.outputs) {
      output[..list.len()].copy_from_slice(list);
    }
  }
  let what = || format!("{call:?}, outputs of {room:?}");
  if answer != right.map(|given| given.count) {
    return differ(&what(), &right.map(|given| given.count), &answer, "the library");
  }
  if outputs != right_outputs {
    return differ(&format!("{}, what they hold", what()), &right_outputs, &outputs, "the library");
  }
  None
}
