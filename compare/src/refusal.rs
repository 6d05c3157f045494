//! Document 01's refusals 1 to 6, C-11's 8, C-16's 9, C-18's 10 and what C-24 says of names, read from their words alone.
use project::{COLUMNS, LISTS, MARK, Project, column::*, text::names_fit};

use crate::{
  lent::Lent,
  model::{Call, Model},
};

/// What may stand in a column.
#[derive(Clone, Copy)]
pub enum Values {
  /// Numbers below this.
  Below(u32),
  /// A row of the list whose first column this is.
  Row(usize),
  /// The same, or `-`.
  RowOrMark(usize),
  /// "any value but the mark"
  NotMark,
  /// `newer`, a later row of the modules or `-`: 10, never 2.
  Later,
}

pub fn values(column: usize) -> Values {
  use Values::{Below, Later, NotMark, Row, RowOrMark};
  const MODULE: usize = NORMAL;
  const RECORD: usize = RECORD_MODULE;
  const STATEMENT: usize = STATEMENT_MODULE;
  const SYMBOL: usize = OWNER;
  const REFERENCE: usize = REFERENCE_STATEMENT;
  const CHUNKS: usize = ORDER;
  match column {
    NORMAL | INCLUDED | SENSITIVE | READS | STATEMENT_INCLUDED => Below(2),
    EXPORTS | WRAP | REFERENCE_FORM => Below(3),
    RECORD_KIND => Below(4),
    RECORD_MODULE | DEPENDENCY_MODULE | DEPENDENCY | STATEMENT_MODULE | OWNER | MEMBER | ENTRY
    | SEED => Row(MODULE),
    RECORD_TARGET => RowOrMark(MODULE),
    CHUNK | ENTRY_CHUNK => RowOrMark(CHUNKS),
    USE_STATEMENT | REFERENCE_STATEMENT => Row(STATEMENT),
    USE_RECORD => Row(RECORD),
    CANONICAL | CHAIN_SYMBOL | CHAIN_LINK | DEPENDED => Row(SYMBOL),
    REFERENCE_SYMBOL => RowOrMark(SYMBOL),
    DEPENDED_REFERENCE => Row(REFERENCE),
    ORDER => NotMark,
    NEWER => Later,
    MEMBER_CHUNK | IMPORT_CHUNK | IMPORTS => Row(CHUNKS),
    _ => unreachable!(),
  }
}

/// "Modules 1 to 4,096; chunks 0 to 1,024; any other list 0 to 16,384 rows."
pub fn limit(first: usize) -> usize {
  match first {
    NORMAL => 4_096,
    ORDER => 1_024,
    _ => 16_384,
  }
}

/// The lines of names that end.
fn name_lines(p: &Project) -> usize {
  p.names.iter().filter(|&&byte| byte == b'\n').count()
}

/// 1: "a list is over its limit, its columns differ in length, or no module is there"
fn sizes(p: &Project) -> bool {
  let list_fits = |list: &project::List| {
    let rows = p[list.first].len();
    rows <= limit(list.first)
      && (list.first..list.first + list.width).all(|column| p[column].len() == rows)
  };
  p.modules() > 0 && LISTS.iter().all(list_fits) && name_lines(p) <= 16_384
}

/// 2: "a value outside its column", and "names that break the form", where there is a name at all
fn inside(p: &Project) -> bool {
  let fits = |column: usize, value: u32| match values(column) {
    Values::Below(end) => value < end,
    Values::Row(list) => (value as usize) < p[list].len(),
    Values::RowOrMark(list) => value == MARK || (value as usize) < p[list].len(),
    Values::NotMark => value != MARK,
    Values::Later => true,
  };
  (p.runtime as usize) < p.modules()
    && p.dynamic < 2
    && (!p.is_named() || names_fit(p.modules(), &p.names))
    && (0..COLUMNS).all(|column| p[column].iter().all(|&value| fits(column, value)))
}

/// 3: "in records, statements, members or imports, a first column below the row above"
fn rising(p: &Project) -> bool {
  [RECORD_MODULE, STATEMENT_MODULE, MEMBER_CHUNK, IMPORT_CHUNK]
    .into_iter()
    .all(|column| p[column].windows(2).all(|two| two[0] <= two[1]))
}

/// 4, of a project that passes 1 to 3
fn agreeing(p: &Project) -> bool {
  let external = |&module: &u32| p[NORMAL][module as usize] == 0;
  let form = |reference: u32| p[REFERENCE_FORM][reference as usize];
  let external_acts =
    p[RECORD_MODULE].iter().any(external) || p[STATEMENT_MODULE].iter().any(external);
  let others_record = p.pairs(USE_STATEMENT).any(|(statement, record)| {
    p[STATEMENT_MODULE][statement as usize] != p[RECORD_MODULE][record as usize]
  });
  let depended_without_resolution = p[DEPENDED_REFERENCE].iter().any(|&row| form(row) != 2);
  let without_symbol = p.pairs(REFERENCE_FORM).any(|(form, symbol)| form != 2 && symbol == MARK);
  let twice = |mut rows: Vec<(u32, u32)>| {
    rows.sort_unstable();
    rows.windows(2).any(|two| two[0] == two[1])
  };
  let entry_twice = twice(p[ENTRY].iter().map(|&entry| (entry, 0)).collect());
  let import_twice = twice(p.pairs(IMPORT_CHUNK).collect());
  !(external_acts
    || others_record
    || depended_without_resolution
    || without_symbol
    || entry_twice
    || import_twice)
}

/// 10: "a `newer` that is neither missing nor the number of a later module row"
fn superseding(p: &Project) -> bool {
  p[NEWER].iter().enumerate().all(|(row, &newer)| {
    newer == MARK || (row < newer as usize && (newer as usize) < p.modules())
  })
}

/// The first of 1 to 4 and 10 that applies, else 0.
pub fn of_project(p: &Project) -> u32 {
  if !sizes(p) {
    1
  } else if !inside(p) {
    2
  } else if !rising(p) {
    3
  } else if !agreeing(p) {
    4
  } else if !superseding(p) {
    10
  } else {
    0
  }
}

/// The number of a project that is lent: 1 (added) where its bounds don't fit.
pub fn of_lent(lent: &Lent) -> u32 {
  lent.project().map_or(1, |p| of_project(&p))
}

/// "Analysed entries are included and have a chunk."
pub fn analysed(p: &Project, root: u32) -> bool {
  p.pairs(ENTRY).any(|(entry, chunk)| entry == root && chunk != MARK)
    && p[INCLUDED][root as usize] == 1
}

/// 5, of an accepted project: what a call's arguments must be.
fn fitting(p: &Project, call: &Call) -> bool {
  let module = |row: u32| (row as usize) < p.modules();
  match call {
    Call::Sort | Call::Circles | Call::Labels | Call::Whole | Call::Refusal | Call::Grounds | Call::Arrangement => true,
    Call::Expected(root) => module(*root),
    Call::Actual(root) | Call::Load(root, _) | Call::Step(root, ..) | Call::Line(root, _) | Call::Risk(root) | Call::OrderRisk(root) | Call::CycleRisk(root) => {
      module(*root) && analysed(p, *root)
    }
    Call::Reach(chunk) => (*chunk as usize) < p.chunks(),
    Call::Entries(entries) => entries.iter().all(|&entry| module(entry)),
    Call::PlanFrom(seeds) | Call::Taken(seeds) | Call::Takings(seeds) | Call::Check(seeds, _) => {
      seeds.len() <= 16_384 && seeds.iter().all(|&seed| module(seed))
    }
  }
}

/// 9, of an accepted project with fitting arguments: "a plan that isn't one mark a module or holds a mark other than 0 and 1"
pub fn formed(p: &Project, call: &Call) -> bool {
  match call {
    Call::Check(_, plan) | Call::Load(_, plan) | Call::Step(.., plan) => plan.len() == p.modules() && plan.iter().all(|&mark| mark < 2),
    _ => true,
  }
}

/// How many places each of a call's outputs must have. The circles' two slices have as many as there are places of all paths, and paths.
pub fn places(p: &Project, call: &Call) -> Vec<usize> {
  match call {
    Call::Circles if of_project(p) == 0 => {
      let paths = Model::of(p).circles();
      vec![paths.iter().map(Vec::len).sum(), paths.len()]
    }
    Call::Sort | Call::Actual(_) | Call::Load(..) | Call::Takings(_) | Call::Circles => vec![p.modules(); 2],
    Call::Reach(_) | Call::Refusal | Call::Check(..) | Call::Step(..) => Vec::new(),
    Call::Labels => vec![p.chunks()],
    Call::Arrangement => vec![p[MEMBER].len()],
    Call::Line(..) => vec![41],
    _ => vec![p.modules()],
  }
}

/// The number of a call whose outputs have these lengths, 0 if it is accepted.
pub fn of_call(p: &Project, call: &Call, rooms: &[usize]) -> u32 {
  match of_project(p) {
    // With the other tests of 2: "the first number that applies".
    0 | 3 | 4 | 10 if *call == Call::Arrangement && !p.is_named() => 2,
    0 if !fitting(p, call) => 5,
    0 if !formed(p, call) => 9,
    0 if !rooms.is_empty() && places(p, call).iter().zip(rooms).any(|(&places, &room)| room < places) => {
      if *call == Call::Circles { 8 } else { 6 }
    }
    number => number,
  }
}
