//! Document 01's operations, with ties as C-13 has them, the grounds of C-15, the check of C-16, the risk in two kinds as C-17 has it, modules read through `newer` as C-18 has it and members arranged as C-24 has it, and C-12's, written from their
//! words and not from the Rust. Plain and slow on purpose. A project that it is made of passes tests 1 to 4 and 10.
use std::borrow::Cow;

use project::{MARK, Project, column::*};

use crate::wrong::Wrong;

/// An operation with its arguments.
#[derive(Clone, Debug, PartialEq, Eq)]
pub enum Call {
  Sort,
  Expected(u32),
  Actual(u32),
  Labels,
  Reach(u32),
  /// Both kinds of risk, joined by the caller.
  Risk(u32),
  PlanFrom(Vec<u32>),
  /// The same by a worklist.
  Taken(Vec<u32>),
  /// That worklist: its modules as they are listed, and how many are listed after each taking.
  Takings(Vec<u32>),
  Whole,
  /// The tests 1 to 4 alone.
  Refusal,
  OrderRisk(u32),
  CycleRisk(u32),
  /// The expected order of some modules walked together.
  Entries(Vec<u32>),
  Grounds,
  /// The import circles.
  Circles,
  /// A plan made elsewhere: the seeds, and its marks.
  Check(Vec<u32>, Vec<u32>),
  /// All steps of an entry's load with a plan.
  Load(u32, Vec<u32>),
  /// One of them, by its number; as a count: `step_code`.
  Step(u32, u32, Vec<u32>),
  /// One line of an entry's page, by its number; its bytes as numbers.
  Line(u32, u32),
  /// The members of each chunk, arranged.
  Arrangement,
}

/// The lines of a page: "module, expected place, actual place and shift, each right-aligned in 8; then five spaces, and three characters". "Modules of the
/// expected sensitive order come first in that order, then the others by actual place."
pub fn page(expected: &[u32], actual: &[u32], plan: &Set) -> Vec<String> {
  let place = |order: &[u32], module: u32| order.iter().position(|&other| other == module);
  let shown = |place: Option<i64>| place.map_or("-".to_string(), |place| place.to_string());
  let line = |&module: &u32| {
    let (there, here) = (place(expected, module).map(|place| place as i64), place(actual, module).map(|place| place as i64));
    let shift = there.zip(here).map(|(there, here)| here - there);
    let waits = if plan[module as usize] { "yes" } else { " no" };
    format!("{module:>8}{:>8}{:>8}{:>8}     {waits}\n", shown(there), shown(here), shown(shift))
  };
  expected.iter().chain(actual.iter().filter(|module| !expected.contains(module))).map(line).collect()
}

/// What a call of a line gives.
pub fn line_of(page: &[String], number: u32) -> Given {
  let line = page.get(number as usize).map_or(Vec::new(), |line| line.bytes().map(u32::from).collect());
  Given { count: line.len(), outputs: vec![line] }
}

/// A broken condition, from 1 on, and its module, as the library's code has them.
pub fn broken(condition: u32, module: u32) -> usize {
  (condition as usize) << 16 | module as usize
}

/// The first condition that modules break, with the lowest of them, as one number; 0 where none does.
pub fn first_broken(by_condition: Vec<Vec<u32>>) -> usize {
  let named = |(modules, condition): (Vec<u32>, u32)| modules.into_iter().min().map(|m| broken(condition, m));
  by_condition.into_iter().zip(1..).find_map(named).unwrap_or(0)
}

impl Call {
  /// The calls that plan from the same seeds by a worklist, where it is one that plans from seeds.
  pub fn taken(&self) -> Vec<Self> {
    if let Self::PlanFrom(seeds) = self { vec![Self::Taken(seeds.clone()), Self::Takings(seeds.clone())] } else { Vec::new() }
  }
}

/// What an accepted call gives: its count, and each output from place 0.
#[derive(Clone, Debug, PartialEq, Eq)]
pub struct Given {
  pub count: usize,
  pub outputs: Vec<Vec<u32>>,
}

/// A set of modules.
pub type Set = Vec<bool>;

pub fn members(set: &Set) -> Vec<u32> {
  (0..set.len() as u32).filter(|&module| set[module as usize]).collect()
}

pub fn set_of(count: usize, members: &[u32]) -> Set {
  let mut set = vec![false; count];
  for &member in members {
    set[member as usize] = true;
  }
  set
}

#[derive(Clone, Copy)]
struct Record {
  kind: u32,
  /// A module, or the mark.
  target: u32,
}

/// A project with the wraps of planned modules written as 2.
pub fn planned(p: &Project, plan: &[u32]) -> Project {
  let mut planned = p.clone();
  planned[WRAP].iter_mut().zip(plan).filter(|(_, mark)| **mark == 1).for_each(|(wrap, _)| *wrap = 2);
  planned
}

/// The host of each listed module: the noted one, or itself.
pub fn own_hosts(order: &[u32], noted: &[u32]) -> Vec<u32> {
  order.iter().map(|&m| if noted[m as usize] == MARK { m } else { noted[m as usize] }).collect()
}

/// A step as a count: its module and host, or that none is left.
pub fn step_code(step: Option<(u32, u32)>) -> usize {
  step.map_or(1 << 31, |(module, host)| ((module as usize) << 16) + host as usize)
}

#[derive(Clone)]
pub struct Model<'a> {
  /// As it is read.
  p: Cow<'a, Project>,
  wrong: Option<Wrong>,
  /// The records of each module, in row order.
  records: Vec<Vec<Record>>,
  /// The imported chunks and the members of each chunk, in row order.
  imported: Vec<Vec<u32>>,
  members: Vec<Vec<u32>>,
  /// The links of each symbol, and the depended symbols of each reference.
  links: Vec<Vec<u32>>,
  depended: Vec<Vec<u32>>,
  grounds: Vec<u32>,
  sensitive: Set,
  eligible: Set,
  /// For each chunk, the chunks that it reaches by one import or more; its component, itself counted.
  onward: Vec<Vec<bool>>,
  components: Vec<Vec<u32>>,
  /// The expected orders of the analysed entries.
  entry_orders: Vec<Vec<u32>>,
}

/// For each row of a list, the second column of the rows of another list that name it in their first.
fn rows_of(p: &Project, count: usize, first: usize) -> Vec<Vec<u32>> {
  let mut rows = vec![Vec::new(); count];
  for (of, value) in p.pairs(first) {
    rows[of as usize].push(value);
  }
  rows
}

/// "Record targets and dependencies are read through it until a module with `-` is reached."
fn read(p: &Project, wrong: Option<Wrong>) -> Cow<'_, Project> {
  if p[NEWER].iter().all(|&newer| newer == MARK) {
    return Cow::Borrowed(p);
  }
  let is = |reading: Wrong| wrong == Some(reading);
  let last = |module: &mut u32| {
    while let Some(&newer) = p[NEWER].get(*module as usize) {
      if newer == MARK {
        break;
      }
      *module = newer;
      if is(Wrong::OneStepOnly) {
        break;
      }
    }
  };
  let mut columns = vec![];
  if !is(Wrong::TargetsAsWritten) {
    columns.push(RECORD_TARGET);
  }
  if !is(Wrong::DependenciesAsWritten) {
    columns.push(DEPENDENCY);
  }
  for (reading, column) in [
    (Wrong::OldRecordsKept, RECORD_MODULE),
    (Wrong::MembersReplaced, MEMBER),
    (Wrong::EntriesReplaced, ENTRY),
    (Wrong::OwnersReplaced, OWNER),
    (Wrong::SeedsReplaced, SEED),
  ] {
    if is(reading) {
      columns.push(column);
    }
  }
  let mut read = p.clone();
  columns.into_iter().for_each(|column| read[column].iter_mut().for_each(last));
  if is(Wrong::RuntimeReplaced) {
    last(&mut read.runtime);
  }
  Cow::Owned(read)
}

/// A walk that lists a module after what it leads to.
struct Walk<'w> {
  met: Vec<bool>,
  next: &'w dyn Fn(u32) -> Vec<u32>,
  left: Vec<u32>,
}

impl Walk<'_> {
  fn from(&mut self, module: u32) {
    if self.met[module as usize] {
      return;
    }
    self.met[module as usize] = true;
    for target in (self.next)(module) {
      self.from(target);
    }
    self.left.push(module);
  }
}

/// A search of circles at hand: the begun modules without a number, in the order they were begun, those with a number, and the paths.
#[derive(Default)]
struct Circles {
  begun: Vec<u32>,
  numbered: Vec<bool>,
  paths: Vec<Vec<u32>>,
  found: std::collections::HashSet<Vec<u32>>,
  /// For each target the module that last closed a path by it: a wrong way to tell equal paths.
  reporters: std::collections::HashMap<u32, u32>,
}

impl Circles {
  /// "Meeting a module that is begun and not yet numbered yields a path."
  fn meet(&mut self, model: &Model, m: u32) {
    if self.numbered[m as usize] {
      return;
    }
    if let Some(at) = self.begun.iter().position(|&begun| begun == m) {
      let mut path = self.begun[at..].to_vec();
      if !model.is(Wrong::CirclesUnclosed) {
        path.push(m);
      }
      let last = self.begun[self.begun.len() - 1];
      let new = match model.wrong {
        Some(Wrong::CirclesRepeated) => true,
        Some(Wrong::CirclesByLastReporter) => self.reporters.insert(m, last) != Some(last),
        _ => self.found.insert(path.clone()),
      };
      if new {
        self.paths.push(path);
      }
      return;
    }
    self.begun.push(m);
    for target in model.targets(m, |kind| model.is_static(kind)) {
      self.meet(model, target);
    }
    self.begun.pop();
    self.numbered[m as usize] = true;
  }
}

/// An actual order at hand.
struct Load {
  met_chunks: Vec<bool>,
  met: Vec<bool>,
  order: Vec<u32>,
  hosts: Vec<u32>,
}

impl<'a> Model<'a> {
  pub fn of(p: &'a Project) -> Self {
    Self::turned(p, None)
  }

  /// The model with one thing done wrong: what a comparison must find.
  pub fn turned(p: &'a Project, wrong: Option<Wrong>) -> Self {
    let written = p;
    let p = read(p, wrong);
    let mut records = vec![Vec::new(); p.modules()];
    for row in 0..p[RECORD_MODULE].len() {
      let record = Record { kind: p[RECORD_KIND][row], target: p[RECORD_TARGET][row] };
      records[p[RECORD_MODULE][row] as usize].push(record);
    }
    let (modules, chunks) = (p.modules(), p.chunks());
    let mut model = Self {
      wrong,
      records,
      imported: rows_of(&p, p.chunks(), IMPORT_CHUNK),
      members: rows_of(&p, p.chunks(), MEMBER_CHUNK),
      links: rows_of(&p, p[OWNER].len(), CHAIN_SYMBOL),
      depended: rows_of(&p, p[REFERENCE_STATEMENT].len(), DEPENDED_REFERENCE),
      p,
      grounds: Vec::new(),
      sensitive: Vec::new(),
      eligible: Vec::new(),
      onward: Vec::new(),
      components: Vec::new(),
      entry_orders: Vec::new(),
    };
    model.grounds = model.all_grounds();
    model.sensitive = model.grounds.iter().map(|&ground| ground > 0).collect();
    model.eligible = (0..modules as u32).map(|m| model.is_eligible(m)).collect();
    model.members = model.members_read(written);
    model.onward = (0..chunks as u32).map(|chunk| model.onward_of(chunk)).collect();
    model.components = (0..chunks as u32).map(|chunk| model.component_of(chunk)).collect();
    model.entry_orders = model.analysed().into_iter().map(|entry| model.expected(entry)).collect();
    model
  }

  fn is(&self, wrong: Wrong) -> bool {
    self.wrong == Some(wrong)
  }

  fn count(&self) -> usize {
    self.p.modules()
  }
  fn normal(&self, m: u32) -> bool {
    self.p[NORMAL][m as usize] == 1
  }
  fn included(&self, m: u32) -> bool {
    self.p[INCLUDED][m as usize] == 1
  }
  fn wrapped(&self, m: u32) -> bool {
    self.p[WRAP][m as usize] != 0
  }

  /// The targets of a module's records of some kinds, in record order.
  fn targets(&self, m: u32, kinds: impl Fn(u32) -> bool) -> Vec<u32> {
    let followed = |record: &&Record| kinds(record.kind) && record.target != MARK;
    self.records[m as usize].iter().filter(followed).map(|record| record.target).collect()
  }

  fn walk<'w>(&self, next: &'w dyn Fn(u32) -> Vec<u32>) -> Walk<'w> {
    Walk { met: vec![false; self.count()], next, left: Vec::new() }
  }

  // ------------------------------------------------------------ module numbers and sorted list

  /// "kinds 0 and 1, and 2 if dynamic is 1"
  fn is_static(&self, kind: u32) -> bool {
    if self.is(Wrong::DynamicNever) {
      return kind < 2;
    }
    if self.is(Wrong::RequireNotSorted) && kind == 1 {
      return false;
    }
    kind < 2 || (kind == 2 && (self.p.dynamic == 1 || self.is(Wrong::DynamicAlways)))
  }

  /// "The runtime comes first, then the entries in row order."
  fn sort_roots(&self) -> Vec<u32> {
    let passed = |entry: &&u32| !self.is(Wrong::SortIncludedEntries) || self.included(**entry);
    let mut roots: Vec<u32> = self.p[ENTRY].iter().filter(passed).copied().collect();
    let first = if self.is(Wrong::RuntimeNotFirst) { roots.len() } else { 0 };
    roots.insert(first, self.p.runtime);
    roots
  }

  pub fn numbers_and_sorted(&self) -> (Vec<u32>, Vec<u32>) {
    let next = |m: u32| self.targets(m, |kind| self.is_static(kind));
    let mut walk = self.walk(&next);
    self.sort_roots().into_iter().for_each(|root| walk.from(root));
    let mut numbers = vec![MARK; self.count()];
    let mut sorted = Vec::new();
    let mut number = 0;
    for m in walk.left {
      if self.is(Wrong::ExternalsUnnumbered) && !self.normal(m) {
        continue;
      }
      numbers[m as usize] = number;
      number += 1;
      if self.normal(m) || self.is(Wrong::ExternalsListed) {
        sorted.push(m);
      }
    }
    (numbers, sorted)
  }

  // ------------------------------------------------------------ import circles

  /// The paths in the order of finding.
  pub fn circles(&self) -> Vec<Vec<u32>> {
    let mut search = Circles { numbered: vec![false; self.count()], ..Circles::default() };
    for root in self.sort_roots() {
      search.meet(self, root);
    }
    search.paths
  }

  // ------------------------------------------------------------ expected order

  /// Kind 0 targets that are normal.
  fn source_targets(&self, m: u32) -> Vec<u32> {
    self.targets(m, |kind| kind == 0).into_iter().filter(|&target| self.normal(target)).collect()
  }

  pub fn expected(&self, root: u32) -> Vec<u32> {
    if !self.normal(root) && !self.is(Wrong::ExternalRootListed) {
      return Vec::new();
    }
    let next = |m: u32| {
      if self.is(Wrong::StopAtExcluded) && !self.included(m) {
        return Vec::new();
      }
      if self.is(Wrong::RequireInExpected) {
        return self.targets(m, |kind| kind < 2).into_iter().filter(|&t| self.normal(t)).collect();
      }
      self.source_targets(m)
    };
    let mut walk = self.walk(&next);
    walk.from(root);
    walk.left.into_iter().filter(|&m| self.included(m) || self.is(Wrong::ExcludedListed)).collect()
  }

  /// "The list is the entries' parts in turn: each listed module stands once, in the part of the first included entry that reaches it."
  pub fn entries(&self, entries: &[u32]) -> Vec<u32> {
    let mut list: Vec<u32> = Vec::new();
    for &entry in entries {
      if !self.included(entry) && !self.is(Wrong::ExcludedEntryWalked) {
        continue;
      }
      let stands = |m: &u32| list.contains(m) && !self.is(Wrong::MarksCleared);
      let part: Vec<u32> = self.expected(entry).into_iter().filter(|m| !stands(m)).collect();
      list.extend(part);
    }
    list
  }

  // ------------------------------------------------------------ actual order and hosts

  /// The chunk of an entry's row.
  fn entry_chunk(&self, root: u32) -> u32 {
    let column = self.p[CHUNK][root as usize];
    if self.is(Wrong::EntryChunkByColumn) && column != MARK {
      return column;
    }
    self.p.pairs(ENTRY).find(|row| row.0 == root).map_or(MARK, |row| row.1)
  }

  fn visit_chunk(&self, chunk: u32, load: &mut Load) {
    if load.met_chunks[chunk as usize] {
      return;
    }
    load.met_chunks[chunk as usize] = true;
    let mut imported = self.imported[chunk as usize].clone();
    if self.is(Wrong::TiesByChunkRow) {
      imported.sort();
    }
    if self.is(Wrong::TiesByLaterImport) {
      imported.reverse();
    }
    if !self.is(Wrong::ChunksAsWritten) {
      // Stable: those of equal `order` stay as their import rows stand.
      imported.sort_by_key(|&other| self.p[ORDER][other as usize]);
    }
    if self.is(Wrong::ChunksByRow) {
      imported.sort();
    }
    if !self.is(Wrong::ImportsAfter) {
      imported.iter().for_each(|&other| self.visit_chunk(other, load));
    }
    for &member in &self.members[chunk as usize] {
      if !self.wrapped(member) || self.is(Wrong::WrappedMembersRun) {
        self.execute(member, member, load);
      }
    }
    if self.is(Wrong::ImportsAfter) {
      imported.iter().for_each(|&other| self.visit_chunk(other, load));
    }
  }

  fn execute(&self, m: u32, host: u32, load: &mut Load) {
    let included = self.included(m) || self.is(Wrong::ExcludedRun);
    if !self.normal(m) || !included || load.met[m as usize] {
      return;
    }
    load.met[m as usize] = true;
    let kinds = |kind: u32| kind == 0 || (kind == 1 && !self.is(Wrong::RequireNotRun));
    for target in self.targets(m, kinds) {
      if self.wrapped(target) || self.is(Wrong::UnwrappedRun) {
        let host = if self.is(Wrong::HostIsParent) { m } else { host };
        self.execute(target, host, load);
      }
    }
    load.order.push(m);
    if m != host {
      load.hosts[m as usize] = host;
    }
  }

  /// The actual order of an analysed entry, and a host or the mark for each module.
  pub fn actual(&self, root: u32) -> (Vec<u32>, Vec<u32>) {
    let mut load = Load {
      met_chunks: vec![false; self.p.chunks()],
      met: vec![false; self.count()],
      order: Vec::new(),
      hosts: vec![MARK; self.count()],
    };
    self.visit_chunk(self.entry_chunk(root), &mut load);
    if self.wrapped(root) && !self.is(Wrong::WrappedRootStays) {
      self.execute(root, root, &mut load);
    }
    (load.order, load.hosts)
  }

  // ------------------------------------------------------------ the arrangement of members

  /// The members of each chunk as they are read: "in this arrangement exactly if the project has names".
  fn members_read(&self, written: &Project) -> Vec<Vec<u32>> {
    if !self.p.is_named() || self.is(Wrong::MembersAsWritten) {
      return self.members.clone();
    }
    let names: Vec<Vec<u8>> = self.p.module_names().iter().map(|name| self.name_read(name)).collect();
    let mut unread = Project { names: Vec::new(), ..written.clone() };
    unread[NEWER].fill(MARK);
    let numbers = if self.is(Wrong::NumbersAsWritten) { Model::of(&unread).numbers_and_sorted().0 } else { self.numbers_and_sorted().0 };
    let arranged = |members: &Vec<u32>| {
      let mut members = members.clone();
      members.sort_by_key(|&m| (self.member_key(&names[m as usize], numbers[m as usize], m), m));
      if self.is(Wrong::MembersOnce) {
        members.dedup();
      }
      members
    };
    self.members.iter().map(arranged).collect()
  }

  /// A name, as the wrong readings of `~` have it.
  fn name_read(&self, name: &[u8]) -> Vec<u8> {
    let mut name = name.to_vec();
    if self.is(Wrong::TildeAsItself) && name[0] == 0 {
      name[0] = b'~';
    }
    if self.is(Wrong::TildeInside) {
      name.iter_mut().filter(|byte| **byte == b'~').for_each(|byte| *byte = 0);
    }
    name
  }

  /// "First come names beginning `rolldown:` or byte 0 and `rolldown/`, by module number from the sort. Then come normal modules without records and without
  /// the sensitive flag, by name bytes. The others follow by module number." The group, and a number or a name.
  fn member_key(&self, name: &[u8], number: u32, m: u32) -> (u32, u32, Vec<u8>) {
    let own = name.starts_with(b"rolldown:")
      || name.starts_with(b"\0rolldown/")
      || (self.is(Wrong::OwnWithoutColon) && name.starts_with(b"rolldown"))
      || (self.is(Wrong::OwnWithoutZero) && name.starts_with(b"rolldown/"));
    let counted = |record: &Record| record.kind == 0 || !self.is(Wrong::LeavesWithoutImports);
    let sensitive = if self.is(Wrong::LeavesByDerived) { self.sensitive[m as usize] } else { self.p[SENSITIVE][m as usize] == 1 };
    let leaf = (self.normal(m) || self.is(Wrong::ExternalLeaves)) && !self.records[m as usize].iter().any(counted) && !sensitive;
    let number = if self.is(Wrong::UnreachedFirst) { number.wrapping_add(1) } else { number };
    let by_name = |is: bool| if is { (0, name.to_vec()) } else { (number, Vec::new()) };
    let (group, (number, name)) = match (own, leaf) {
      (true, _) => (if self.is(Wrong::OwnLast) { 4 } else { 0 }, by_name(self.is(Wrong::OwnByName))),
      (_, true) => (if self.is(Wrong::LeavesLast) { 3 } else { 1 }, by_name(!self.is(Wrong::LeavesByNumber))),
      _ => (2, by_name(self.is(Wrong::OthersByName))),
    };
    (group, number, name)
  }

  /// The members of each chunk as they are read.
  pub fn arranged(&self) -> &[Vec<u32>] {
    &self.members
  }

  /// The actual order of an analysed entry "with every planned module's wrap read as 2 and other wraps as written", and the host of each place, the module
  /// itself where it is its own.
  pub fn tried(&self, root: u32, plan: &[u32]) -> (Vec<u32>, Vec<u32>) {
    let planned = Self { p: Cow::Owned(planned(&self.p, plan)), ..self.clone() };
    let (order, noted) = planned.actual(root);
    let hosts = own_hosts(&order, &noted);
    (order, hosts)
  }

  // ------------------------------------------------------------ cyclic chunks

  fn onward_of(&self, chunk: u32) -> Vec<bool> {
    let mut reached = vec![false; self.p.chunks()];
    let mut todo = self.imported[chunk as usize].clone();
    while let Some(other) = todo.pop() {
      if !std::mem::replace(&mut reached[other as usize], true) {
        todo.extend(&self.imported[other as usize]);
      }
    }
    reached
  }

  fn goes(&self, from: u32, to: u32) -> bool {
    self.onward[from as usize][to as usize]
  }

  fn all_chunks(&self) -> impl Iterator<Item = u32> {
    0..self.p.chunks() as u32
  }

  fn component_of(&self, chunk: u32) -> Vec<u32> {
    let both_ways =
      |&other: &u32| other == chunk || (self.goes(chunk, other) && self.goes(other, chunk));
    self.all_chunks().filter(both_ways).collect()
  }

  /// "in a component of two or more, or with an edge to itself"
  fn is_cyclic(&self, chunk: u32) -> bool {
    let edge_to_itself = self.imported[chunk as usize].contains(&chunk);
    self.components[chunk as usize].len() > 1
      || (edge_to_itself && !self.is(Wrong::SelfEdgeIgnored))
  }

  pub fn labels(&self) -> Vec<u32> {
    let label = |chunk: u32| {
      let component = &self.components[chunk as usize];
      let lowest = if self.is(Wrong::LabelHighest) { component.len() - 1 } else { 0 };
      if self.is_cyclic(chunk) { component[lowest] } else { MARK }
    };
    self.all_chunks().map(label).collect()
  }

  /// Whether a chunk reaches a cyclic one, itself counted.
  pub fn reaches(&self, chunk: u32) -> bool {
    let itself = |other: u32| other == chunk && !self.is(Wrong::ReachNotItself);
    let onward = |other: u32| {
      other != chunk && self.goes(chunk, other) && !self.is(Wrong::ReachOnlyItself)
    };
    self.all_chunks().any(|other| (itself(other) || onward(other)) && self.is_cyclic(other))
  }

  // ------------------------------------------------------------ risk

  /// "0 for insensitive, 1 for its own flag, 2 for a use that triggers a wrapped module, 3 for both"
  fn all_grounds(&self) -> Vec<u32> {
    let mut triggers = vec![false; self.count()];
    for (statement, record) in self.p.pairs(USE_STATEMENT) {
      let kind = self.p[RECORD_KIND][record as usize];
      let target = self.p[RECORD_TARGET][record as usize];
      let included = self.p[STATEMENT_INCLUDED][statement as usize] == 1;
      let kind_fits = kind == 0 || (self.is(Wrong::RequireTriggers) && kind == 1);
      if (!included && !self.is(Wrong::ExcludedStatementTriggers)) || !kind_fits || target == MARK {
        continue;
      }
      if !self.normal(target) && !self.is(Wrong::ExternalTriggers) {
        continue;
      }
      if self.is(Wrong::ExcludedTargetStays) && !self.included(target) {
        continue;
      }
      if self.wrapped(target) {
        triggers[self.p[STATEMENT_MODULE][statement as usize] as usize] = true;
      }
    }
    let ground = |m: u32| {
      let at = m as usize;
      let runtime = m == self.p.runtime && !self.is(Wrong::RuntimeSensitive);
      let included = self.included(m) || self.is(Wrong::ExcludedSensitive);
      if runtime || !self.normal(m) || !included {
        return 0;
      }
      let flagged = self.p[SENSITIVE][at] == 1;
      let by_use = triggers[at] && !self.is(Wrong::UseIgnored) && !(flagged && self.is(Wrong::FlagEndsTheSearch));
      u32::from(flagged) + 2 * u32::from(by_use)
    };
    (0..self.count() as u32).map(ground).collect()
  }

  fn is_eligible(&self, m: u32) -> bool {
    let at = m as usize;
    (m != self.p.runtime || self.is(Wrong::RuntimeEligible))
      && (self.included(m) || self.is(Wrong::ExcludedEligible))
      && self.normal(m)
      && (self.p[EXPORTS][at] != 2 || self.is(Wrong::CommonJsEligible))
      && (self.p[EXPORTS][at] != 0 || !self.is(Wrong::NoExportsIneligible))
      && (!self.wrapped(m) || self.is(Wrong::WrappedEligible))
  }

  pub fn grounds(&self) -> Vec<u32> {
    self.grounds.clone()
  }

  pub fn sensitive(&self) -> Vec<u32> {
    members(&self.sensitive)
  }

  pub fn eligible(&self) -> Vec<u32> {
    members(&self.eligible)
  }

  fn only_sensitive(&self, order: &[u32]) -> Vec<u32> {
    order.iter().copied().filter(|&m| self.sensitive[m as usize]).collect()
  }

  /// Those of a sensitive expected order with an earlier one at a greater actual place.
  fn early(&self, expected: &[u32], places: &[Option<usize>]) -> Vec<u32> {
    let place = |m: u32| places[m as usize];
    let greater = |earlier: u32, later: u32| match (place(earlier), place(later)) {
      (Some(earlier), Some(later)) => earlier > later,
      (None, Some(_)) => self.is(Wrong::AbsentCountsLast),
      _ => false,
    };
    let is_early = |at: &usize| {
      let first = if self.is(Wrong::NeighboursOnly) { at.saturating_sub(1) } else { 0 };
      expected[first..*at].iter().any(|&earlier| greater(earlier, expected[*at]))
    };
    (0..expected.len()).filter(is_early).map(|at| expected[at]).collect()
  }

  /// "from differing and early modules with the hosts that stand in for them"
  pub fn order_risk(&self, root: u32) -> Set {
    let expected = self.only_sensitive(&self.expected(root));
    let (actual, hosts) = self.actual(root);
    let actual = self.only_sensitive(&actual);
    let mut places = vec![None; self.count()];
    for (place, &m) in actual.iter().enumerate() {
      places[m as usize] = Some(place);
    }

    let mut flagged = Vec::new();
    if !self.is(Wrong::MissingNotFlagged) {
      flagged.extend(expected.iter().copied().filter(|m| !actual.contains(m)));
    }
    if !self.is(Wrong::PhantomNotFlagged) {
      flagged.extend(actual.iter().copied().filter(|m| !expected.contains(m)));
    }
    if !self.is(Wrong::EarlyNotFlagged) {
      flagged.extend(self.early(&expected, &places));
    }

    let mut risk = vec![false; self.count()];
    for m in flagged {
      let host = hosts[m as usize];
      if self.eligible[m as usize] {
        risk[m as usize] = true;
      } else if host != MARK
        && !self.is(Wrong::HostSpared)
        && (self.eligible[host as usize] || self.is(Wrong::AnyHost))
      {
        risk[host as usize] = true;
      }
    }
    risk
  }

  /// "all eligible expected modules if its chunk reaches a cyclic one"
  pub fn cycle_risk(&self, root: u32) -> Set {
    let mut risk = vec![false; self.count()];
    if self.reaches(self.entry_chunk(root)) && !self.is(Wrong::CycleStepLeftOut) {
      for m in self.expected(root) {
        let spared = self.is(Wrong::CycleStepSensitiveOnly) && !self.sensitive[m as usize];
        risk[m as usize] = self.eligible[m as usize] && !spared;
      }
    }
    risk
  }

  /// The modules at risk of an analysed entry, by either kind.
  pub fn risk(&self, root: u32) -> Set {
    self.order_risk(root).into_iter().zip(self.cycle_risk(root)).map(|(early, cycle)| early || cycle).collect()
  }

  // ------------------------------------------------------------ plan

  pub fn analysed(&self) -> Vec<u32> {
    let has_chunk = |&(_, chunk): &(u32, u32)| chunk != MARK;
    let mut entries: Vec<u32> =
      self.p.pairs(ENTRY).filter(has_chunk).map(|row| row.0).collect();
    if !self.is(Wrong::ExcludedEntriesAnalysed) {
      entries.retain(|&entry| self.included(entry));
    }
    if self.is(Wrong::FirstEntryOnly) {
      entries.truncate(1);
    }
    entries
  }

  /// Reached by kind 0 records over normal modules from an analysed entry, the entry itself counted.
  fn reached(&self) -> Set {
    let next = |m: u32| {
      if self.is(Wrong::ReachedOverIncluded) && !self.included(m) {
        return Vec::new();
      }
      self.source_targets(m)
    };
    let mut walk = self.walk(&next);
    for entry in self.analysed() {
      walk.from(entry);
    }
    if self.is(Wrong::EntryNotReached) {
      for entry in self.analysed() {
        walk.met[entry as usize] = false;
      }
    }
    if self.is(Wrong::AllReached) {
      walk.met.fill(true);
    }
    walk.met
  }

  /// Planned, or leading to a planned module by kind 0 records.
  fn leading(&self, planned: &Set) -> Set {
    let mut leading = planned.clone();
    if self.is(Wrong::DirectTargetOnly) {
      return leading;
    }
    loop {
      let before = leading.clone();
      for m in 0..self.count() as u32 {
        let leads = |&target: &u32| leading[target as usize];
        if self.targets(m, |kind| kind == 0).iter().any(leads) {
          leading[m as usize] = true;
        }
      }
      if leading == before {
        return leading;
      }
    }
  }

  /// "A symbol touches by its owner, its canonical's owner, or a link owner in either's chain."
  fn touches(&self, symbol: u32, planned: &Set) -> bool {
    let owner = |symbol: u32| planned[self.p[OWNER][symbol as usize] as usize];
    let canonical = self.p[CANONICAL][symbol as usize];
    let links = |of: u32| {
      let mut links = self.links[of as usize].clone();
      if self.is(Wrong::LinksFollowedTwice) {
        links.extend(self.links[of as usize].iter().flat_map(|&link| &self.links[link as usize]));
      }
      links
    };
    if self.is(Wrong::CanonicalFollowedTwice) && owner(self.p[CANONICAL][canonical as usize]) {
      return true;
    }
    (owner(symbol) && !self.is(Wrong::OwnerIgnored))
      || (owner(canonical) && !self.is(Wrong::CanonicalIgnored))
      || (links(symbol).into_iter().any(owner) && !self.is(Wrong::ChainIgnored))
      || (links(canonical).into_iter().any(owner) && !self.is(Wrong::CanonicalChainIgnored))
  }

  fn reference_touches(&self, reference: usize, planned: &Set) -> bool {
    let symbol = self.p[REFERENCE_SYMBOL][reference];
    match self.p[REFERENCE_FORM][reference] {
      0 => self.touches(symbol, planned) && !self.is(Wrong::PlainSymbolIgnored),
      1 => self.touches(symbol, planned) && !self.is(Wrong::ObjectIgnored),
      _ => {
        let depended = |&symbol: &u32| self.touches(symbol, planned);
        let resolved = symbol != MARK && self.touches(symbol, planned);
        (resolved && !self.is(Wrong::ResolvedIgnored))
          || (!self.is(Wrong::DependedIgnored) && self.depended[reference].iter().any(depended))
      }
    }
  }

  /// (i) "from the first planned module of an analysed entry's expected sensitive order on, every eligible one"
  fn rule_suffix(&self, planned: &Set, asked: &mut Set) {
    for expected in &self.entry_orders {
      self.suffix_of(expected, planned, asked);
    }
  }

  fn suffix_of(&self, expected: &[u32], planned: &Set, asked: &mut Set) {
    let starts = |m: u32| {
      let sensitive = self.sensitive[m as usize] || self.is(Wrong::SuffixFromInsensitive);
      sensitive && planned[m as usize]
    };
    let Some(first) = expected.iter().position(|&m| starts(m)) else { return };
    for &m in &expected[first..] {
      let sensitive = self.sensitive[m as usize] || self.is(Wrong::SuffixOverInsensitive);
      asked[m as usize] |= sensitive && self.eligible[m as usize];
    }
  }

  /// (ii) "for a planned module whose chunk is cyclic, every sensitive eligible member of its component"
  fn rule_cycle(&self, planned: &Set, asked: &mut Set) {
    let mut chunks: Vec<u32> =
      members(planned).into_iter().map(|m| self.p[CHUNK][m as usize]).collect();
    if self.is(Wrong::ChunkByMembers) {
      let has_planned = |&row: &(u32, u32)| planned[row.1 as usize];
      chunks = self.p.pairs(MEMBER_CHUNK).filter(has_planned).map(|row| row.0).collect();
    }
    chunks.sort_unstable();
    chunks.dedup();
    for chunk in chunks.into_iter().filter(|&chunk| chunk != MARK && self.is_cyclic(chunk)) {
      for &other in &self.components[chunk as usize] {
        if self.is(Wrong::OwnChunkOnly) && other != chunk {
          continue;
        }
        let mut held = self.members[other as usize].clone();
        if self.is(Wrong::MembersByColumn) {
          held = (0..self.count() as u32).filter(|&m| self.p[CHUNK][m as usize] == other).collect();
        }
        for member in held {
          let sensitive = self.sensitive[member as usize] || self.is(Wrong::CycleInsensitiveToo);
          asked[member as usize] |= sensitive && self.eligible[member as usize];
        }
      }
    }
  }

  /// (iii) "an eligible module reached .., with a planned dependency and a kind 0 target that is planned or leads to a
  /// planned module by kind 0 records"
  fn rule_import(&self, planned: &Set, asked: &mut Set) {
    let mut depends = vec![self.is(Wrong::DependencyIgnored); self.count()];
    for (m, dependency) in self.p.pairs(DEPENDENCY_MODULE) {
      let is_target = self.targets(m, |kind| kind == 0).contains(&dependency);
      depends[m as usize] |=
        planned[dependency as usize] && (is_target || !self.is(Wrong::DependencyIsTarget));
    }
    let (reached, leading) = (self.reached(), self.leading(planned));
    for m in 0..self.count() {
      let kinds = |kind: u32| kind == 0 || (self.is(Wrong::RequireLeads) && kind == 1);
      let leads = |target: u32| leading[target as usize];
      let target_leads = self.targets(m as u32, kinds).into_iter().any(leads);
      asked[m] |= self.eligible[m]
        && reached[m]
        && depends[m]
        && (target_leads || self.is(Wrong::TargetIgnored));
    }
  }

  /// (iv) "such a reached eligible module with `reads` 1 and any statement, included or not, whose reference touches the plan"
  fn rule_read(&self, planned: &Set, asked: &mut Set) {
    let reached = self.reached();
    for reference in 0..self.p[REFERENCE_STATEMENT].len() {
      let statement = self.p[REFERENCE_STATEMENT][reference] as usize;
      let m = self.p[STATEMENT_MODULE][statement] as usize;
      if self.is(Wrong::ExcludedStatementSkipped) && self.p[STATEMENT_INCLUDED][statement] == 0 {
        continue;
      }
      let reads = self.p[READS][m] == 1 || self.is(Wrong::ReadsIgnored);
      if self.eligible[m] && reached[m] && reads && self.reference_touches(reference, planned) {
        asked[m] = true;
      }
    }
  }

  /// What each of the four rules asks for with a set planned, be it any set of modules.
  pub fn asked(&self, planned: &Set) -> [Set; 4] {
    let mut asked = [const { Vec::new() }; 4].map(|_: Set| vec![false; self.count()]);
    self.rule_suffix(planned, &mut asked[0]);
    self.rule_cycle(planned, &mut asked[1]);
    self.rule_import(planned, &mut asked[2]);
    self.rule_read(planned, &mut asked[3]);
    asked
  }

  /// The plan from seeds: "start with the eligible seeds; close under" the four rules.
  pub fn plan_from(&self, seeds: &[u32]) -> Set {
    let mut planned = set_of(self.count(), seeds);
    for m in 0..self.count() {
      planned[m] &= self.eligible[m] || self.is(Wrong::AnySeed);
    }
    loop {
      let before = planned.clone();
      for (rule, asked) in self.asked(&before).into_iter().enumerate() {
        if self.is(Wrong::RULES[rule]) {
          continue;
        }
        for m in members(&asked) {
          planned[m as usize] = true;
        }
      }
      if planned == before || self.is(Wrong::OneRound) {
        return planned;
      }
    }
  }

  /// "the plan from all analysed entries' risks and the seed rows"
  pub fn plan(&self) -> Set {
    let mut seeds = self.p[SEED].clone();
    if self.is(Wrong::SeedRowsIgnored) {
      seeds.clear();
    }
    for entry in self.analysed() {
      seeds.extend(members(&self.risk(entry)));
    }
    self.plan_from(&seeds)
  }

  // ------------------------------------------------------------ plans made elsewhere

  /// What is said of a plan, "in the order eligible, seeds, (i), (ii), (iii), (iv)", each rule judged on the plan as it is given.
  pub fn check(&self, seeds: &[u32], plan: &[u32]) -> usize {
    let planned: Set = plan.iter().map(|&mark| mark == 1).collect();
    let lacking = |modules: Vec<u32>| -> Vec<u32> { modules.into_iter().filter(|&m| !planned[m as usize]).collect() };
    let wrong = members(&planned).into_iter().filter(|&m| !self.eligible[m as usize] && !self.is(Wrong::AnyPlanned));
    let seeded = seeds.iter().copied().filter(|&m| self.eligible[m as usize] || self.is(Wrong::AnySeedAsked));
    let mut by_condition = vec![wrong.collect(), lacking(seeded.collect())];
    let mut asked = self.asked(&planned);
    if self.is(Wrong::SuffixGrows) {
      asked[0] = self.grown_suffixes(&planned);
    }
    by_condition.extend(asked.map(|asked| lacking(members(&asked))));
    if self.is(Wrong::SeedsCheckedFirst) {
      by_condition.swap(0, 1);
    }
    if self.is(Wrong::SuffixCheckedLater) {
      by_condition.swap(2, 3);
    }
    if self.is(Wrong::HighestNamed) {
      by_condition.iter_mut().for_each(|modules| *modules = modules.iter().copied().max().into_iter().collect());
    }
    first_broken(by_condition)
  }

  /// What (i) asks for where each entry's order is judged on the plan with what the orders before it asked for.
  fn grown_suffixes(&self, planned: &Set) -> Set {
    let mut grown = planned.clone();
    for expected in &self.entry_orders {
      let before = grown.clone();
      self.suffix_of(expected, &before, &mut grown);
    }
    grown
  }

  // ------------------------------------------------------------ takings

  /// "the eligible seeds and what a rule asks for with just the taken ones planned"
  fn listed(&self, seeds: &[u32], taken: &[u32]) -> Set {
    let eligible = self.eligible();
    let mut listed = set_of(self.count(), &seeds.iter().copied().filter(|seed| eligible.contains(seed)).collect::<Vec<u32>>());
    for asked in self.asked(&set_of(self.count(), taken)) {
      listed.iter_mut().zip(asked).for_each(|(is, asked)| *is |= asked);
    }
    listed
  }

  /// A worklist in the order of `hint`, as far as 02 leaves that order free: what is listed after each taking follows the one before, and stands as `hint` has it
  /// where that has just these modules there, else rising. With how many are listed before each taking.
  pub fn takings(&self, seeds: &[u32], hint: &[u32]) -> Given {
    let (mut list, mut lengths): (Vec<u32>, Vec<u32>) = (Vec::new(), Vec::new());
    loop {
      let held = set_of(self.count(), &list);
      let added: Vec<u32> =
        members(&self.listed(seeds, &list[..lengths.len()])).into_iter().filter(|&m| !held[m as usize]).collect();
      let hinted = hint.get(list.len()..list.len() + added.len()).unwrap_or(&added).to_vec();
      let mut rising = hinted.clone();
      rising.sort_unstable();
      list.extend(if rising == added { hinted } else { added });
      if lengths.len() == list.len() {
        return Given { count: list.len(), outputs: vec![list, lengths] };
      }
      lengths.push(list.len() as u32);
    }
  }

  // ------------------------------------------------------------ calls

  /// What an accepted call gives.
  pub fn give(&self, call: &Call) -> Given {
    let list = |list: Vec<u32>| Given { count: list.len(), outputs: vec![list] };
    let marks = |set: Set| Given {
      count: members(&set).len(),
      outputs: vec![set.into_iter().map(u32::from).collect()],
    };
    match call {
      Call::Sort => {
        let (numbers, sorted) = self.numbers_and_sorted();
        Given { count: sorted.len(), outputs: vec![numbers, sorted] }
      }
      Call::Circles => {
        let paths = self.circles();
        let lengths = paths.iter().map(|path| path.len() as u32).collect();
        Given { count: paths.len(), outputs: vec![paths.concat(), lengths] }
      }
      Call::Expected(root) => list(self.expected(*root)),
      Call::Actual(root) => {
        let (order, hosts) = self.actual(*root);
        Given { count: order.len(), outputs: vec![order, hosts] }
      }
      Call::Labels => {
        let labels = self.labels();
        Given { count: labels.iter().filter(|&&label| label != MARK).count(), outputs: vec![labels] }
      }
      Call::Reach(chunk) => {
        Given { count: usize::from(self.reaches(*chunk)), outputs: Vec::new() }
      }
      Call::Risk(root) => marks(self.risk(*root)),
      Call::OrderRisk(root) => marks(self.order_risk(*root)),
      Call::CycleRisk(root) => marks(self.cycle_risk(*root)),
      Call::Grounds => {
        Given { count: members(&self.sensitive).len(), outputs: vec![self.grounds.clone()] }
      }
      Call::PlanFrom(seeds) | Call::Taken(seeds) => marks(self.plan_from(seeds)),
      Call::Takings(seeds) => self.takings(seeds, &[]),
      Call::Whole => marks(self.plan()),
      Call::Refusal => Given { count: 0, outputs: Vec::new() },
      Call::Entries(entries) => list(self.entries(entries)),
      Call::Check(seeds, plan) => Given { count: self.check(seeds, plan), outputs: Vec::new() },
      Call::Load(root, plan) => {
        let (steps, hosts) = self.tried(*root, plan);
        Given { count: steps.len(), outputs: vec![steps, hosts] }
      }
      Call::Step(root, number, plan) => {
        let (steps, hosts) = self.tried(*root, plan);
        let shown = steps.into_iter().zip(hosts).nth(*number as usize);
        Given { count: step_code(shown), outputs: Vec::new() }
      }
      Call::Line(root, number) => {
        let (expected, actual) = (self.only_sensitive(&self.expected(*root)), self.only_sensitive(&self.actual(*root).0));
        line_of(&page(&expected, &actual, &self.plan()), *number)
      }
      Call::Arrangement => list(self.members.concat()),
    }
  }
}
