//! The replay list: small cases with the original's answers (where there are ties the model's), as numbers that the program crate `replay` reads.
//!
//! First how many cases. A case is a line with `#` and its name; then how many bounds and these; how many values the columns have and these; how many
//! bytes the names have and these, as numbers; `runtime dynamic`, what every output holds before a call, and how many calls. A call is its operation (its
//! number in `put_call`), its argument, 0 and the count or 1 and the refusal's number, and how many places each of two outputs has; how many
//! seeds or entries and these (for the check of a plan the seeds, as many as the argument says, and then the plan's marks); and for each output how many places
//! are written and these.
//! `-` is the missing mark. In a list, `5*0` stands for five zeros, `3*8+2` for 8 10 12, `3*8~2` for 8 6 4, `6*8+1/2` for 8 8 9 9 10 10; and `5.` for the
//! five values that stand there in the case before.
use oracle::Original;
use project::{COLUMNS, LISTS, MARK, Project, column::*};

use crate::{
  edges,
  judge::{self, Judge, check_by_the_original, entry_lists, marks, one_call_each, risks},
  lent::Lent,
  model::{Call, Given, Model, line_of, members, own_hosts, page, planned, set_of},
  refusal::{self, Values, limit, values},
  shrink::shrunk,
  wrong::Wrong,
};

/// Whether a wrong reading of ties loads the chunks of an entry in another order than the model.
fn tie_told(p: &Project, wrong: Wrong) -> bool {
  let (model, turned) = (Model::of(p), Model::turned(p, Some(wrong)));
  model.analysed().into_iter().any(|root| turned.actual(root) != model.actual(root))
}

/// Some plans to be checked: each module alone with itself as seed; the whole plan, and that without its lowest module; no module and every module with every seed.
fn checks(p: &Project) -> Vec<Call> {
  let n = p.modules();
  let all: Vec<u32> = (0..n as u32).collect();
  let mut calls: Vec<Call> = all.iter().map(|&m| Call::Check(vec![m], marks(&set_of(n, &[m])))).collect();
  calls.extend([0, 1].map(|mark| Call::Check(all.clone(), vec![mark; n])));
  let plan = Model::of(p).plan();
  let less = members(&plan).into_iter().skip(1).collect::<Vec<u32>>();
  calls.extend([plan, set_of(n, &less)].map(|set| Call::Check(p[SEED].clone(), marks(&set))));
  calls
}

/// Whether a wrong reading of the check says another thing of one of these plans than the original does.
fn check_told(p: &Project, wrong: Wrong) -> bool {
  let (turned, original) = (Model::turned(p, Some(wrong)), Original::of(p));
  checks(p).iter().any(|call| matches!(call, Call::Check(seeds, plan) if turned.check(seeds, plan) != check_by_the_original(&original, seeds, plan)))
}

/// Whether a wrong reading differs from the original on a project; one of ties, from the model. The later row is told where the chunk rows rise.
pub fn told(p: &Project, wrong: Wrong) -> bool {
  if Wrong::TIES.contains(&wrong) {
    return tie_told(p, wrong) && (wrong == Wrong::TiesByChunkRow || !tie_told(p, Wrong::TiesByChunkRow));
  }
  if Wrong::CHECKS.contains(&wrong) {
    return check_told(p, wrong);
  }
  if p.tied() {
    return false;
  }
  let original = Original::of(p);
  if original.open_chunks().contains(&true) {
    return false;
  }
  let turned = Model::turned(p, Some(wrong));
  let (numbers, sorted) = turned.numbers_and_sorted();
  let reaches: Vec<bool> = (0..p.chunks() as u32).map(|chunk| turned.reaches(chunk)).collect();
  let entry_told = |entry: &oracle::Entry| {
    let (order, hosts) = turned.actual(entry.root);
    turned.expected(entry.root) != entry.expected
      || order != entry.actual
      || hosts != entry.hosts
      || members(&turned.order_risk(entry.root)) != entry.early
      || members(&turned.cycle_risk(entry.root)) != entry.cycle
  };
  numbers != original.numbers()
    || (p.is_named() && turned.arranged() != original.members())
    || !same_circles(p, &turned)
    || sorted != original.sorted()
    || turned.labels() != original.labels()
    || reaches != original.reaches()
    || turned.grounds() != original.grounds()
    || original.entries().iter().any(entry_told)
    || members(&turned.plan()) != original.plan()
    || entry_lists(p).iter().any(|list| turned.entries(list) != original.entries_together(list))
    || (0..p.modules() as u32).any(|m| {
      turned.expected(m) != original.expected(m)
        || members(&turned.plan_from(&[m])) != original.plan_from(&[m])
    })
}

/// What outputs hold before a call, where a case says nothing else. No call writes it.
const FILLER: u32 = 9_999;

/// A call, and how many places each of its outputs has.
pub type Asked = (Call, Vec<usize>);

/// Calls on one project.
pub struct Case {
  pub name: String,
  pub lent: Lent,
  pub filler: u32,
  pub calls: Vec<Asked>,
  /// The wrong reading that the case is named after.
  pub wrong: Option<Wrong>,
}

impl Case {
  pub fn of(name: impl Into<String>, p: &Project, calls: Vec<Asked>) -> Self {
    Self { name: name.into(), lent: Lent::of(p), filler: FILLER, calls, wrong: None }
  }
}

/// The call with outputs of two places more than it needs.
fn roomy(p: &Project, call: Call) -> Asked {
  let rooms = judge::roomy(&refusal::places(p, &call), 2);
  (call, rooms)
}

/// Every operation on every argument, and one call that is refused by 5 for each that can be.
fn every_call(p: &Project) -> Vec<Asked> {
  let n = p.modules() as u32;
  let mut calls = vec![Call::Sort, Call::Circles, Call::Labels, Call::Whole, Call::Grounds, Call::Arrangement, Call::PlanFrom(vec![])];
  for module in 0..n {
    calls.extend([Call::Expected(module), Call::PlanFrom(vec![module]), Call::Taken(vec![module])]);
  }
  let plans = [marks(&Model::of(p).plan()), vec![1; p.modules()]];
  for &root in &p[ENTRY] {
    calls.push(Call::Actual(root));
    calls.extend(plans.iter().map(|plan| Call::Load(root, plan.clone())));
    calls.extend((0..4.min(n + 1)).map(|number| Call::Line(root, number)));
    calls.extend(risks(root));
  }
  calls.extend((0..p.chunks() as u32).map(Call::Reach));
  calls.extend(entry_lists(p).map(Call::Entries));
  calls.extend(checks(p));
  calls.into_iter().map(|call| roomy(p, call)).collect()
}

/// For each wrong reading the smallest project found that tells it. The first six are document 01's own wrong turns.
fn telling(random: &dyn Fn(usize) -> Project) -> Vec<Case> {
  let fits = |p: &Project| p.modules() <= 12 && refusal::of_project(p) == 0;
  let tell = |(at, &wrong): (usize, &Wrong)| {
    let shows = |p: &Project| fits(p) && told(p, wrong);
    let found = (0..).map(random).find(shows).unwrap();
    let project = shrunk(&found, &shows);
    let kind = if at < 6 { "wrong turn" } else { "wrong reading" };
    let name = format!("{kind}: {}", wrong.words());
    Case { wrong: Some(wrong), ..Case::of(name, &project, every_call(&project)) }
  };
  Wrong::ALL.iter().enumerate().map(tell).collect()
}

/// Document 01's listing, as it stands and with each change that 01 marks.
fn listing() -> Vec<Case> {
  let changes: [(&str, fn(&mut Project)); 4] = [
    ("as it stands", |_| {}),
    ("edge 1 to 0 added", |p| p.push(IMPORT_CHUNK, [1, 0])),
    ("edge 0 to 0 added", |p| {
      p.push(IMPORT_CHUNK, [0, 0]);
      p[IMPORTS].swap(0, 1);
    }),
    ("module 3 external", |p| p[NORMAL][3] = 0),
  ];
  let case = |(name, change): (&str, fn(&mut Project))| {
    let mut project = edges::listing();
    change(&mut project);
    Case::of(format!("listing: {name}"), &project, every_call(&project))
  };
  changes.into_iter().map(case).collect()
}

/// Projects of some size in which all four rules add to the plan, some of them in a later round.
fn larger(random: &dyn Fn(usize) -> Project) -> Vec<Case> {
  let rich = |p: &Project| {
    if !(8..=24).contains(&p.modules()) || refusal::of_project(p) != 0 || p.tied() {
      return false;
    }
    let mut judge = Judge::default();
    assert_eq!(judge.differs(p), None);
    let rules = judge.tally.by_rule.iter().filter(|&&adds| adds > 0).count();
    rules >= 2 && judge.tally.later_rounds > 0 && judge.tally.with_hosts > 0 && judge.tally.with_risk > 0
  };
  let case = |(at, project): (usize, Project)| {
    Case::of(format!("several rules, {}", at + 1), &project, every_call(&project))
  };
  (0..).map(random).filter(rich).take(8).enumerate().map(case).collect()
}

/// Projects with ties whose whole plan each wrong reading of ties changes.
fn ties(random: &dyn Fn(usize) -> Project) -> Vec<Case> {
  let decides = |p: &Project| {
    p.modules() <= 24
      && refusal::of_project(p) == 0
      && Wrong::TIES.iter().all(|&wrong| Model::turned(p, Some(wrong)).plan() != Model::of(p).plan())
  };
  let case = |(at, project): (usize, Project)| {
    let project = shrunk(&project, &decides);
    Case::of(format!("ties, {}", at + 1), &project, every_call(&project))
  };
  (0..).map(random).filter(decides).take(4).enumerate().map(case).collect()
}

/// A small project with a row in every list.
fn whole() -> Project {
  let mut p = Project::default();
  for _ in 0..3 {
    p.push(NORMAL, [1, 1, 1, 1, 1, 0, 0, MARK]);
  }
  p.push(NORMAL, [0, 1, 0, 0, 1, 0, MARK, MARK]);
  p.push(RECORD_MODULE, [1, 0, 2]);
  p.push(RECORD_MODULE, [2, 1, MARK]);
  p.push(DEPENDENCY_MODULE, [1, 2]);
  p.push(STATEMENT_MODULE, [1, 1]);
  p.push(STATEMENT_MODULE, [2, 0]);
  p.push(USE_STATEMENT, [0, 0]);
  p.push(OWNER, [2, 0]);
  p.push(CHAIN_SYMBOL, [0, 0]);
  p.push(REFERENCE_STATEMENT, [0, 2, MARK]);
  p.push(REFERENCE_STATEMENT, [1, 0, 0]);
  p.push(DEPENDED_REFERENCE, [0, 0]);
  p.push(ORDER, [1]);
  p.push(ORDER, [0]);
  p.push(MEMBER_CHUNK, [0, 1]);
  p.push(MEMBER_CHUNK, [1, 2]);
  p.push(IMPORT_CHUNK, [0, 0]);
  p.push(IMPORT_CHUNK, [1, 0]);
  p.push(ENTRY, [1, 0]);
  p.push(ENTRY, [2, MARK]);
  p.push(SEED, [2]);
  p
}

/// A call of each operation.
fn each_call(p: &Project) -> Vec<Asked> {
  one_call_each(p.modules()).into_iter().filter(|call| !matches!(call, Call::Step(..) | Call::Takings(_))).map(|call| roomy(p, call)).collect()
}

/// A project with one thing wrong, refused by every operation.
fn refused(name: String, change: impl FnOnce(&mut Project)) -> Case {
  let mut project = whole();
  change(&mut project);
  Case::of(format!("refused {name}"), &project, each_call(&project))
}

/// Each ground of 1 to 4 and of 10; for 2 each column with the first value past its end, and with the mark where that isn't allowed.
fn refusals() -> Vec<Case> {
  let mut cases = vec![
    refused("1, no module".into(), |p| *p = Project::default()),
    refused("1, a value too many".into(), |p| p[ENTRY_CHUNK].push(0)),
    refused("1, a value too few".into(), |p| p[ENTRY_CHUNK].truncate(1)),
    refused("2, runtime".into(), |p| p.runtime = 4),
    refused("2, dynamic".into(), |p| p.dynamic = 2),
  ];
  for column in 0..COLUMNS {
    let end = match values(column) {
      Values::Later => continue,
      Values::Below(end) => end,
      Values::Row(list) | Values::RowOrMark(list) => whole()[list].len() as u32,
      Values::NotMark => MARK,
    };
    cases.push(refused(format!("2, column {column} past its end"), |p| p[column][0] = end));
    if matches!(values(column), Values::Below(_) | Values::Row(_)) {
      cases.push(refused(format!("2, column {column} missing"), |p| p[column][0] = MARK));
    }
  }
  for list in [RECORD_MODULE, STATEMENT_MODULE, MEMBER_CHUNK, IMPORT_CHUNK] {
    cases.push(refused(format!("3, column {list} falls"), |p| p[list].swap(0, 1)));
  }
  let fours: [(&str, fn(&mut Project)); 8] = [
    ("an external with a record", |p| p[RECORD_MODULE][1] = 3),
    ("an external with a statement", |p| p[STATEMENT_MODULE][1] = 3),
    ("a use of another module's record", |p| p[USE_RECORD][0] = 1),
    ("a depended row for form 0", |p| p[DEPENDED_REFERENCE][0] = 1),
    ("form 0 without a symbol", |p| p[REFERENCE_SYMBOL][1] = MARK),
    ("form 1 without a symbol", |p| {
      p[REFERENCE_FORM][1] = 1;
      p[REFERENCE_SYMBOL][1] = MARK;
    }),
    ("an entry twice", |p| p[ENTRY][1] = 1),
    ("an import pair twice", |p| p[IMPORT_CHUNK][1] = 0),
  ];
  for (name, change) in fours {
    cases.push(refused(format!("4, {name}"), change));
  }
  for (row, newer) in [(0, 0), (2, 1), (0, 4), (3, MARK - 1)] {
    cases.push(refused(format!("10, module {row} superseded by {newer}"), |p| p[NEWER][row] = newer));
  }
  cases
}

/// Each list at its limit and with one row more, its last row repeated. Entries and imports are refused by 4 at their limit, by 1 past it.
fn limits() -> Vec<Case> {
  let mut cases = Vec::new();
  for list in &LISTS {
    for length in [limit(list.first), limit(list.first) + 1] {
      let mut project = whole();
      for column in list.first..list.first + list.width {
        let last = *project[column].last().unwrap();
        project[column].resize(length, last);
      }
      let name = format!("limits: {length} rows of `{}`", list.names);
      cases.push(Case::of(name, &project, each_call(&project)));
    }
  }
  cases
}

/// 5 and 6, and what is accepted beside them.
fn arguments() -> Case {
  let project = whole();
  let (n, c) = (project.modules() as u32, project.chunks() as u32);
  let mut calls = every_call(&project);
  for root in [0, 2, 3, n, MARK] {
    calls.push(roomy(&project, Call::Actual(root)));
    calls.extend(risks(root).map(|call| roomy(&project, call)));
  }
  for call in [
    Call::Expected(n),
    Call::Expected(MARK),
    Call::Reach(c),
    Call::Reach(MARK),
    Call::PlanFrom(vec![0, n]),
    Call::PlanFrom(vec![MARK]),
    Call::PlanFrom(vec![1; 16_384]),
    Call::PlanFrom(vec![1; 16_385]),
    Call::PlanFrom(vec![n; 16_385]),
    Call::PlanFrom(vec![1, 1, 0]),
    Call::Entries(vec![]),
    Call::Entries(vec![0, n]),
    Call::Entries(vec![MARK, 1]),
    Call::Entries(vec![1; 16_385]),
    Call::Check(vec![0, n], vec![0; n as usize]),
    Call::Check(vec![n], vec![2]),
    Call::Check(vec![1], vec![0; n as usize - 1]),
    Call::Check(vec![1], vec![0; n as usize + 1]),
    Call::Check(vec![1], vec![2; n as usize]),
    Call::Check(vec![1], vec![1, 0, 0, MARK]),
    Call::Check(vec![1], vec![]),
    Call::Check(vec![1; 16_380], vec![0; n as usize]),
    Call::Load(0, vec![2]),
    Call::Load(MARK, vec![0; n as usize]),
    Call::Load(1, vec![]),
    Call::Load(1, vec![0; n as usize + 1]),
    Call::Load(1, vec![0, 1, 0, 2]),
    Call::Line(0, 0),
    Call::Line(MARK, 0),
    Call::Line(1, MARK),
  ] {
    calls.push(roomy(&project, call));
  }
  for (call, rooms) in each_call(&project) {
    for short in 0..rooms.len() {
      let mut rooms = refusal::places(&project, &call);
      calls.push((call.clone(), rooms.clone()));
      rooms[short] = rooms[short].saturating_sub(1);
      calls.push((call.clone(), rooms));
    }
  }
  Case::of("refused 5 and 6, and accepted beside them", &project, calls)
}

/// Bounds that don't fit, of each kind; each with every operation.
fn unfit() -> Vec<Case> {
  let project = whole();
  let case = |(kind, name): (usize, &&str)| Case {
    lent: Lent::of(&project).unfit(kind, 3 * kind),
    ..Case::of(format!("refused 1, {name}"), &project, each_call(&project))
  };
  Lent::UNFIT.iter().enumerate().map(case).collect()
}

fn put(out: &mut String, values: impl IntoIterator<Item = u32>) {
  for value in values {
    project::text::field(out, value);
    out.push(' ');
  }
}

/// How many values from the front pass, one after the other.
fn while_so(list: &[u32], passes: impl Fn(usize) -> bool) -> usize {
  (0..list.len()).find(|&at| !passes(at)).unwrap_or(list.len())
}

/// The front of a list as a run of one kind, and how many values that is. `before` is what stood at these places.
fn runs(list: &[u32], before: &[u32]) -> Vec<(usize, String)> {
  let first = list[0];
  let mut of = String::new();
  project::text::field(&mut of, first);
  let kept = while_so(list, |at| before.get(at) == Some(&list[at]));
  let equal = while_so(list, |at| list[at] == first);
  let mut runs = vec![(1, of.clone()), (kept, format!("{kept}.")), (equal, format!("{equal}*{of}"))];
  // Each value `equal` times, the next by one step from it.
  if let Some(&next) = list.get(equal) {
    let step = next.wrapping_sub(first) as i32;
    let value = |at: usize| first.wrapping_add((step as u32).wrapping_mul((at / equal) as u32));
    let climbing = while_so(list, |at| list[at] == value(at));
    let sign = if step < 0 { '~' } else { '+' };
    let each = if equal == 1 { String::new() } else { format!("/{equal}") };
    runs.push((climbing, format!("{climbing}*{of}{sign}{}{each}", step.unsigned_abs())));
  }
  runs
}

/// A list, in the runs that save most, and at least four bytes. `before` is what stood in its places.
fn put_list(out: &mut String, list: &[u32], before: &[u32]) {
  let mut at = 0;
  while at < list.len() {
    let saved = |&(length, ref words): &(usize, String)| {
      let mut plain = String::new();
      put(&mut plain, list[at..at + length].iter().copied());
      (plain.len() - 1).saturating_sub(words.len())
    };
    let rest = before.get(at..).unwrap_or_default();
    let best = runs(&list[at..], rest).into_iter().filter(|run| run.0 > 0).max_by_key(saved).unwrap();
    let (length, words) = if saved(&best) < 4 { runs(&list[at..], &[]).swap_remove(0) } else { best };
    out.push_str(&words);
    out.push(' ');
    at += length;
  }
}

fn end_line(out: &mut String) {
  out.pop();
  out.push('\n');
}

/// The number of a call, and what it gives where it is accepted.
fn answer(case: &Case, p: Option<&Project>, model: Option<&Model>, (call, rooms): &Asked) -> (u32, Option<Given>) {
  match p.map_or(1, |p| refusal::of_call(p, call, rooms)) {
    0 => (0, Some(model.unwrap_or_else(|| panic!("{}: accepted", case.name)).give(call))),
    number => (number, None),
  }
}

fn put_call(out: &mut String, asked: &Asked, number: u32, given: Option<Given>) {
  let (call, rooms) = asked;
  let (operation, argument) = match call {
    Call::Sort => (0, 0),
    Call::Expected(root) => (1, *root),
    Call::Actual(root) => (2, *root),
    Call::Labels => (3, 0),
    Call::Reach(chunk) => (4, *chunk),
    Call::Risk(root) => (5, *root),
    Call::PlanFrom(_) => (6, 0),
    Call::Taken(_) => (16, 0),
    Call::Whole => (7, 0),
    Call::Refusal => (8, 0),
    Call::OrderRisk(root) => (9, *root),
    Call::CycleRisk(root) => (10, *root),
    Call::Entries(_) => (11, 0),
    Call::Grounds => (12, 0),
    Call::Circles => (13, 0),
    Call::Check(seeds, _) => (14, seeds.len() as u32),
    Call::Arrangement => (15, 0),
    Call::Load(root, _) => (17, *root),
    Call::Line(root, _) => (18, *root),
    Call::Step(..) => unreachable!("a step stands in the list as a part of its load"),
    Call::Takings(_) => unreachable!("the order of a worklist is free"),
  };
  let refused = u32::from(number != 0);
  put(out, [operation, argument, refused, given.as_ref().map_or(number, |given| given.count as u32)]);
  put(out, (0..2).map(|at| rooms.get(at).copied().unwrap_or(0) as u32));
  let lent = match call {
    Call::PlanFrom(list) | Call::Taken(list) | Call::Entries(list) => list.clone(),
    Call::Check(seeds, plan) => [&seeds[..], plan].concat(),
    Call::Load(_, plan) => plan.clone(),
    Call::Line(_, number) => vec![*number],
    _ => Vec::new(),
  };
  put(out, [lent.len() as u32]);
  put_list(out, &lent, &[]);
  for at in 0..2 {
    let written = given.as_ref().and_then(|given| given.outputs.get(at)).map_or(&[][..], |list| list);
    put(out, [written.len() as u32]);
    put_list(out, written, &[]);
  }
  end_line(out);
}

/// What the original itself gives for an accepted call; nothing for the test of the tables, which it doesn't have.
fn of_the_original(p: &Project, original: &Original, call: &Call) -> Option<Given> {
  let list = |list: Vec<u32>| Given { count: list.len(), outputs: vec![list] };
  let marks = |rows: Vec<u32>| Given {
    count: rows.len(),
    outputs: vec![set_of(p.modules(), &rows).into_iter().map(u32::from).collect()],
  };
  let entry = |root: u32| original.entries().into_iter().find(|entry| entry.root == root).unwrap();
  Some(match call {
    Call::Sort => {
      let sorted = original.sorted();
      Given { count: sorted.len(), outputs: vec![original.numbers(), sorted] }
    }
    Call::Expected(root) => list(original.expected(*root)),
    Call::Actual(root) => {
      let entry = entry(*root);
      Given { count: entry.actual.len(), outputs: vec![entry.actual, entry.hosts] }
    }
    Call::Labels => {
      let labels = original.labels();
      Given { count: labels.iter().filter(|&&label| label != MARK).count(), outputs: vec![labels] }
    }
    Call::Reach(chunk) => {
      Given { count: usize::from(original.reaches()[*chunk as usize]), outputs: Vec::new() }
    }
    Call::Risk(root) => marks(entry(*root).risk),
    Call::PlanFrom(seeds) | Call::Taken(seeds) => marks(original.plan_from(seeds)),
    Call::Whole => marks(original.plan()),
    Call::Refusal => return None,
    Call::OrderRisk(root) => marks(entry(*root).early),
    Call::CycleRisk(root) => marks(entry(*root).cycle),
    Call::Entries(entries) => list(original.entries_together(entries)),
    Call::Grounds => Given { count: original.sensitive().len(), outputs: vec![original.grounds()] },
    Call::Check(seeds, plan) => Given { count: check_by_the_original(original, seeds, plan), outputs: Vec::new() },
    Call::Arrangement => list(original.members().concat()),
    Call::Load(root, plan) => {
      let entry = Original::of(&planned(p, plan)).entries().into_iter().find(|entry| entry.root == *root).unwrap();
      let hosts = own_hosts(&entry.actual, &entry.hosts);
      Given { count: entry.actual.len(), outputs: vec![entry.actual, hosts] }
    }
    Call::Line(root, number) => {
      let (entry, sensitive) = (entry(*root), set_of(p.modules(), &original.sensitive()));
      let only = |order: Vec<u32>| order.into_iter().filter(|&module| sensitive[module as usize]).collect::<Vec<u32>>();
      line_of(&page(&only(original.expected(*root)), &only(entry.actual), &set_of(p.modules(), &original.plan())), *number)
    }
    Call::Step(..) | Call::Takings(_) => return None,
    // As a set: `same_circles`.
    Call::Circles => return None,
  })
}

/// Whether the original says what a call gives: with ties it leaves open what the load order decides, and the arrangement of a chunk in which two modules tie.
fn said(p: &Project, original: &Original, call: &Call) -> bool {
  let open = original.open_chunks().contains(&true);
  match call {
    Call::Actual(_) | Call::Load(..) | Call::Line(..) | Call::Risk(_) | Call::OrderRisk(_) | Call::Whole => !p.tied() && !open,
    Call::Arrangement => !open,
    _ => true,
  }
}

/// The first accepted call of a case whose answer the original doesn't give.
fn not_the_originals<'c>(case: &'c Case, p: &Project, model: &Model) -> Option<&'c Call> {
  let original = Original::of(p);
  let differs = |(call, rooms): &&Asked| {
    refusal::of_call(p, call, rooms) == 0
      && said(p, &original, call)
      && of_the_original(p, &original, call).is_some_and(|given| given != model.give(call))
  };
  case.calls.iter().find(differs).map(|(call, _)| call)
}

/// Whether a model has the original's circles, in whatever order.
fn same_circles(p: &Project, model: &Model) -> bool {
  let mut circles = model.circles();
  circles.sort_unstable();
  circles == oracle::circles(p)
}

/// How many of a case's answers the wrong reading that it is named after would change.
fn changed(case: &Case, p: &Project, wrong: Wrong) -> usize {
  let (right, turned) = (Model::of(p), Model::turned(p, Some(wrong)));
  let accepted = case.calls.iter().filter(|(call, rooms)| refusal::of_call(p, call, rooms) == 0);
  accepted.filter(|(call, _)| right.give(call) != turned.give(call)).count()
}

/// The data, and how many cases and answers it has.
pub fn data(random: &dyn Fn(usize) -> Project) -> (String, usize, usize) {
  let mut cases = listing();
  cases.extend(telling(random));
  cases.extend(larger(random));
  cases.extend(ties(random));
  cases.extend(refusals());
  cases.extend(unfit());
  cases.push(arguments());
  cases.extend(limits());
  cases.extend(edges::all());
  let mut out = format!("{}\n", cases.len());
  let mut answers = 0;
  let (mut bounds, mut columns, mut names) = (Vec::new(), Vec::new(), Vec::new());
  for case in &cases {
    let Case { name, lent, filler, calls, wrong } = case;
    let p = lent.project();
    let accepted = p.as_ref().filter(|p| refusal::of_project(p) == 0);
    let model = accepted.map(Model::of);
    if let (Some(p), Some(model)) = (accepted, &model) {
      // Every answer that the original says is its own: where the model's were to differ, nothing is written.
      assert_eq!(not_the_originals(case, p, model), None, "{name}");
      assert!(same_circles(p, model), "{name}");
      assert!(wrong.is_none_or(|wrong| changed(case, p, wrong) > 0), "{name}");
    }
    out.push_str(&format!("# {name}\n"));
    let bytes = lent.names.iter().copied().map(u32::from).collect();
    for (list, before) in [(&lent.bounds, &mut bounds), (&lent.columns, &mut columns), (&bytes, &mut names)] {
      put(&mut out, [list.len() as u32]);
      put_list(&mut out, list, before);
      keep(before, list);
    }
    put(&mut out, [lent.runtime, lent.dynamic, *filler, calls.len() as u32]);
    end_line(&mut out);
    for asked in calls {
      let (number, given) = answer(case, p.as_ref(), model.as_ref(), asked);
      put_call(&mut out, asked, number, given);
    }
    answers += calls.len();
  }
  (out, cases.len(), answers)
}

/// Writes a list from place 0 over what stood there.
fn keep(before: &mut Vec<u32>, list: &[u32]) {
  before.splice(..list.len().min(before.len()), list.iter().copied());
}
