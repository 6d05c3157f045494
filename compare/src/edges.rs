//! The edges of each operation as cases of the replay list: limits, largest and smallest refused values, lengths, small projects by hand, and the
//! deepest walks.
use project::{LISTS, MARK, Project, column::*};

use crate::{
  judge::one_call_each,
  model::Call,
  refusal::{self, Values, limit, values},
  replay::{Asked, Case},
};

/// Document 01's listing.
pub fn listing() -> Project {
  let mut p = Project::default();
  for (sensitive, chunk) in [(0, 1), (1, 0), (1, 0), (1, 1)] {
    p.push(NORMAL, [1, 1, sensitive, 0, 1, 0, chunk, MARK]);
  }
  for target in [2, 3] {
    p.push(RECORD_MODULE, [1, 0, target]);
    p.push(DEPENDENCY_MODULE, [1, target]);
  }
  p[ORDER] = vec![1, 0];
  for row in [[0, 2], [0, 1], [1, 0], [1, 3]] {
    p.push(MEMBER_CHUNK, row);
  }
  p.push(IMPORT_CHUNK, [0, 1]);
  p.push(ENTRY, [1, 0]);
  p
}

/// Adds rows to a list.
fn rows<const N: usize>(p: &mut Project, first: usize, rows: &[[u32; N]]) {
  rows.iter().for_each(|&row| p.push(first, row));
}

/// A case whose outputs hold 7 before each call.
fn case(name: String, p: &Project, calls: Vec<Asked>) -> Case {
  Case { filler: 7, ..Case::of(name, p, calls) }
}

/// All of them.
pub fn all() -> Vec<Case> {
  [tests(), orders(), circles(), together(), chunks(), actual_orders(), risks(), replaced(), named()].into_iter().flatten().collect()
}

// The tests 1 to 4 and 10.

/// A small project with rows in every list.
fn small() -> Project {
  let mut p = Project::default();
  rows(&mut p, NORMAL, &[
    [1, 1, 0, 0, 1, 0, 0, MARK],
    [1, 1, 0, 0, 1, 0, 0, MARK],
    [1, 1, 1, 0, 1, 0, 1, MARK],
    [1, 1, 0, 0, 1, 0, 1, MARK],
  ]);
  rows(&mut p, RECORD_MODULE, &[[1, 0, 2], [1, 0, 3]]);
  rows(&mut p, DEPENDENCY_MODULE, &[[1, 2], [1, 3]]);
  rows(&mut p, STATEMENT_MODULE, &[[1, 1], [1, 1]]);
  rows(&mut p, USE_STATEMENT, &[[0, 0], [0, 0]]);
  rows(&mut p, OWNER, &[[1, 0], [2, 1]]);
  rows(&mut p, CHAIN_SYMBOL, &[[0, 1], [1, 0]]);
  rows(&mut p, REFERENCE_STATEMENT, &[[0, 0, 0], [1, 2, 1]]);
  rows(&mut p, DEPENDED_REFERENCE, &[[1, 0], [1, 1]]);
  p[ORDER] = vec![1, 0];
  rows(&mut p, MEMBER_CHUNK, &[[0, 1], [1, 2]]);
  rows(&mut p, IMPORT_CHUNK, &[[0, 1], [1, 0]]);
  rows(&mut p, ENTRY, &[[1, 0], [2, 1]]);
  p[SEED] = vec![0, 1];
  p
}

/// The test alone, on the small project with a change.
fn test(name: String, change: impl FnOnce(&mut Project)) -> Case {
  let mut p = small();
  change(&mut p);
  Case::of(format!("tests: {name}"), &p, vec![(Call::Refusal, vec![])])
}

/// Gives a list as many rows as this that agree with each other.
fn lengthen(p: &mut Project, first: usize, length: usize) {
  let list = LISTS.iter().find(|list| list.first == first).unwrap();
  for column in first..first + list.width {
    let value = |row: usize| match column {
      REFERENCE_FORM => 2,
      ENTRY => row % 4_096,
      IMPORT_CHUNK => row / 16,
      IMPORTS => row % 1_024,
      NEWER => MARK as usize,
      _ => 1,
    };
    p[column] = (0..length).map(|row| value(row) as u32).collect();
  }
}

/// Each list with no row, with as many as its limit, and with one more. Beside the imports all chunks are there, beside the entries all modules.
fn limits() -> Vec<Case> {
  let mut cases = Vec::new();
  for list in &LISTS {
    for length in [0, limit(list.first), limit(list.first) + 1] {
      cases.push(test(format!("{length} rows of `{}`", list.names), |p| {
        lengthen(p, list.first, length);
        match list.first {
          IMPORT_CHUNK => lengthen(p, ORDER, limit(ORDER)),
          ENTRY => lengthen(p, NORMAL, limit(NORMAL)),
          _ => {}
        }
      }));
    }
  }
  cases.push(test("modules alone".into(), |p| {
    LISTS[1..].iter().for_each(|list| lengthen(p, list.first, 0));
    p[CHUNK].fill(MARK);
  }));
  cases.push(test("4096 entries".into(), |p| {
    lengthen(p, NORMAL, 4_096);
    lengthen(p, ENTRY, 4_096);
  }));
  cases
}

/// Each column, in its last row, and each setting at its largest value, one more, one less than the mark, and the mark.
fn largest() -> Vec<Case> {
  let mut cases = Vec::new();
  let mut all = |name: String, largest: u32, set: &dyn Fn(&mut Project, u32)| {
    for value in [largest, largest + 1, MARK - 1, MARK] {
      cases.push(test(format!("{name} is {value}"), |p| set(p, value)));
    }
  };
  for list in &LISTS {
    for (column, name) in (list.first..).zip(list.names.split(' ')) {
      let largest = match values(column) {
        Values::Below(end) => end - 1,
        Values::Row(named) | Values::RowOrMark(named) => small()[named].len() as u32 - 1,
        Values::NotMark => MARK - 1,
        Values::Later => small().modules() as u32 - 1,
      };
      let name = format!("`{name}` of `{}`", list.names);
      all(name, largest, &|p, value| *p[column].last_mut().unwrap() = value);
    }
  }
  all("`runtime`".into(), 3, &|p, value| p.runtime = value);
  all("`dynamic`".into(), 1, &|p, value| p.dynamic = value);
  cases
}

/// Each column a row shorter than it is.
fn shorter() -> Vec<Case> {
  let mut cases = Vec::new();
  for list in &LISTS {
    for (column, name) in (list.first..).zip(list.names.split(' ')) {
      let name = format!("`{name}` of `{}` a row shorter", list.names);
      let rows = small()[column].len();
      cases.push(test(name, |p| p[column].truncate(rows - 1)));
    }
  }
  cases
}

/// Faults of rows, what may stand beside them, and two faults at once.
fn faults() -> Vec<Case> {
  let faults: [(&str, fn(&mut Project)); 30] = [
    ("no fault", |_| {}),
    ("a record of an external", |p| (p[RECORD_MODULE][1], p[NORMAL][3]) = (3, 0)),
    ("a statement of an external", |p| (p[STATEMENT_MODULE][1], p[NORMAL][3]) = (3, 0)),
    ("a use of another module's record", |p| (p[RECORD_MODULE][1], p[USE_RECORD][1]) = (2, 1)),
    ("a depended row for form 0", |p| p[DEPENDED_REFERENCE][0] = 0),
    ("a depended row for form 1", |p| (p[DEPENDED_REFERENCE][0], p[REFERENCE_FORM][0]) = (0, 1)),
    ("form 0 without a symbol", |p| p[REFERENCE_SYMBOL][0] = MARK),
    ("form 1 without a symbol", |p| (p[REFERENCE_SYMBOL][0], p[REFERENCE_FORM][0]) = (MARK, 1)),
    ("form 2 without a symbol", |p| p[REFERENCE_SYMBOL][1] = MARK),
    ("an entry twice", |p| p[ENTRY][1] = 1),
    ("an import pair twice", |p| (p[IMPORT_CHUNK][1], p[IMPORTS][1]) = (0, 1)),
    ("records fall", |p| p[RECORD_MODULE][0] = 2),
    ("statements fall", |p| p[STATEMENT_MODULE][0] = 2),
    ("members fall", |p| p[MEMBER_CHUNK] = vec![1, 0]),
    ("imports fall", |p| p[IMPORT_CHUNK] = vec![1, 0]),
    ("dependencies may fall", |p| p[DEPENDENCY_MODULE][0] = 2),
    ("faults 1 and 2", |p| (p[DEPENDENCY], p[SEED][0]) = (vec![2], 9)),
    ("faults 1 and 3", |p| (p[DEPENDENCY], p[RECORD_MODULE][0]) = (vec![2], 2)),
    ("faults 1 and 4", |p| (p[DEPENDENCY], p[ENTRY][1]) = (vec![2], 1)),
    ("faults 2 and 3", |p| (p[WRAP][0], p[RECORD_MODULE][0]) = (3, 2)),
    ("faults 2 and 4", |p| (p.dynamic, p[ENTRY][1]) = (2, 1)),
    ("faults 3 and 4", |p| (p[STATEMENT_MODULE][0], p[ENTRY][1]) = (2, 1)),
    ("a newer module", |p| p[NEWER][0] = 3),
    ("a newer module that is the row itself", |p| p[NEWER][1] = 1),
    ("a newer module in an earlier row", |p| p[NEWER][2] = 1),
    ("a newer module without a row", |p| p[NEWER][0] = 4),
    ("faults 1 and 10", |p| (p[DEPENDENCY], p[NEWER][1]) = (vec![2], 1)),
    ("faults 2 and 10", |p| (p.dynamic, p[NEWER][1]) = (2, 1)),
    ("faults 3 and 10", |p| (p[RECORD_MODULE][0], p[NEWER][1]) = (2, 1)),
    ("faults 4 and 10", |p| (p[ENTRY][1], p[NEWER][1]) = (1, 1)),
  ];
  faults.into_iter().map(|(name, change)| test(name.into(), change)).collect()
}

fn tests() -> Vec<Case> {
  [limits(), largest(), shorter(), faults()].into_iter().flatten().collect()
}

// Sort and expected order.

/// Modules without a chunk, and records of kind 0.
fn modules(count: usize, records: impl Iterator<Item = [u32; 2]>) -> Project {
  let mut p = Project::default();
  rows(&mut p, NORMAL, &vec![[1, 1, 0, 0, 1, 0, MARK, MARK]; count]);
  records.for_each(|[module, target]| p.push(RECORD_MODULE, [module, 0, target]));
  p
}

/// The sort and the expected order of a root, with outputs of so many places.
fn both_orders(root: u32, places: usize) -> Vec<Asked> {
  vec![(Call::Sort, vec![places; 2]), (Call::Expected(root), vec![places])]
}

/// The listing, with a root that has no row and with outputs of three places; the longest chain; four records a module, all to the next and scattered.
fn orders() -> Vec<Case> {
  let listed = [both_orders(1, 4), both_orders(4, 4), both_orders(1, 3)].concat();
  let chain = modules(4_096, (0..4_095).map(|module| [module, module + 1]));
  let next = modules(4_096, (0..16_384).map(|row| [row / 4, (row / 4 + 1) % 4_096]));
  let scattered = modules(256, (0..1_024).map(|row| [row / 4, row * 7 % 256]));
  vec![
    case("orders: the listing".into(), &listing(), listed),
    case("orders: a chain of 4096 modules".into(), &chain, both_orders(0, 4_096)),
    case("orders: 4096 modules with 16384 records".into(), &next, both_orders(0, 4_096)),
    case("orders: 256 modules with 1024 records".into(), &scattered, both_orders(0, 256)),
  ]
}

// Many entries walked together.

/// The listing; what the first entry's part takes from the next; what is passed over; entries in a ring; the longest chain from its end and from its start.
fn together() -> Vec<Case> {
  let ask = |entries: &[u32], places: usize| (Call::Entries(entries.to_vec()), vec![places]);
  let shared = modules(6, [[1, 3], [1, 4], [2, 4], [2, 5]].into_iter());
  let with = |column: usize, module: usize| {
    let mut p = shared.clone();
    p[column][module] = 0;
    p
  };
  let ring = modules(4, [[1, 2], [2, 3], [3, 1]].into_iter());
  let chain = modules(4_096, (0..4_095).map(|module| [module, module + 1]));
  let falling: Vec<u32> = (0..4_096).rev().collect();
  vec![
    case(
      "entries: the listing".into(),
      &listing(),
      vec![ask(&[], 4), ask(&[1], 4), ask(&[3, 1, 3, 0], 4), ask(&[1, 2, 3], 4), ask(&[1, 4], 4), ask(&[4, 1], 4), ask(&[1], 3), ask(&[], 3)],
    ),
    case("entries: 1 and 2 share 4".into(), &shared, vec![ask(&[1, 2], 6), ask(&[2, 1], 6), ask(&[4, 1, 2], 6)]),
    case(
      "entries: entry 1 isn't included; what it shares stands in the part of 2".into(),
      &with(INCLUDED, 1),
      vec![ask(&[1, 2], 6), ask(&[1], 6), ask(&[1, 6], 6), ask(&[3, 1], 6)],
    ),
    case("entries: 4 isn't included, and is walked through".into(), &with(INCLUDED, 4), vec![ask(&[4, 1, 2], 6)]),
    case("entries: 5 is external".into(), &with(NORMAL, 5), vec![ask(&[5], 6), ask(&[5, 2], 6)]),
    case("entries: a ring".into(), &ring, vec![ask(&[2, 1, 3], 4), ask(&[3, 2, 1, 0], 4)]),
    case("entries: a chain of 4096 modules".into(), &chain, vec![ask(&falling, 4_096), ask(&[0, 4_095, 1], 4_096)]),
  ]
}

// Import circles.

/// Normal modules, an external one behind them, and records as they are given.
fn recorded(count: usize, records: &[[u32; 3]]) -> Project {
  let mut p = modules(count, std::iter::empty());
  p.push(NORMAL, [0, 1, 0, 0, 1, 0, MARK, MARK]);
  rows(&mut p, RECORD_MODULE, records);
  p
}

/// A call with slices for the paths and for their lengths.
fn circle_call(paths: usize, lengths: usize) -> Asked {
  (Call::Circles, vec![paths, lengths])
}

/// A chain through 4,096 modules with further records of its last two modules.
fn chained(before_last: &[u32], last: &[u32]) -> Project {
  let chain = (0..4_095).map(|module| [module, module + 1]);
  let back = before_last.iter().map(|&target| [4_094, target]).chain(last.iter().map(|&target| [4_095, target]));
  modules(4_096, chain.chain(back))
}

/// Small graphs; what takes no room; a ring through all modules; 16,384 places and one more; many paths.
fn circles() -> Vec<Case> {
  let both = |paths: usize, lengths: usize| {
    let short = [circle_call(paths - 1, lengths), circle_call(paths, lengths - 1), circle_call(0, 0)];
    [vec![circle_call(paths, lengths), circle_call(paths + 2, lengths + 2)], short.to_vec()].concat()
  };
  let mut dynamic = recorded(2, &[[0, 2, 1], [0, 0, 1], [1, 2, 0], [1, 3, 0]]);
  dynamic.dynamic = 1;
  // 4,097 + 4,096 + 4,095 + 4,096 places
  let full = chained(&[0], &[0, 1, 2]);
  // 4,097 + 4,096 + 4,095 + 4,095 + 2 places
  let over = chained(&[1], &[0, 1, 2, 4_095]);
  let every = modules(120, (0..120 * 120).map(|row| [row / 120, row % 120]));
  let small: [(&str, Project, Vec<Asked>); 10] = [
    ("none", listing(), vec![circle_call(0, 0), circle_call(3, 3)]),
    ("a module that imports itself", recorded(1, &[[0, 0, 0]]), both(2, 1)),
    ("two modules", recorded(2, &[[0, 1, 1], [1, 0, 0]]), both(3, 1)),
    ("kind 3 isn't walked, nor kind 2", recorded(2, &[[0, 0, 1], [1, 2, 0], [1, 3, 0]]), vec![circle_call(0, 0)]),
    ("kind 2 is walked if dynamic is 1", dynamic, both(3, 1)),
    ("an external in between", recorded(2, &[[0, 0, 2], [0, 0, 1], [1, 0, 2], [1, 0, 0]]), both(3, 1)),
    ("repeated rows", recorded(3, &[[0, 0, 1], [0, 0, 2], [0, 0, 1], [1, 0, 2], [2, 0, 0], [2, 0, 1], [2, 1, 0], [2, 0, 2]]), both(9, 3)),
    ("a row of another kind before it", recorded(2, &[[0, 0, 1], [1, 3, 0], [1, 2, 0], [1, 0, 0], [1, 1, 0]]), both(3, 1)),
    (
      "another module closes one there in between",
      recorded(3, &[[0, 0, 1], [1, 0, 0], [1, 0, 2], [1, 0, 0], [2, 0, 0]]),
      both(7, 2),
    ),
    ("modules that no root reaches", recorded(3, &[[1, 0, 2], [2, 0, 1]]), vec![circle_call(0, 0)]),
  ];
  let large: [(&str, Project, Vec<Asked>); 4] = [
    ("a ring through 4096 modules", chained(&[], &[0]), both(4_097, 1)),
    ("16384 places", full, vec![circle_call(16_384, 16_384), circle_call(16_383, 4), circle_call(16_385, 4)]),
    ("16385 places", over, vec![circle_call(16_384, 16_384), circle_call(16_385, 5), circle_call(16_385, 16_385), circle_call(16_385, 4)]),
    ("120 modules with every record", every, vec![circle_call(16_384, 16_384)]),
  ];
  let cases = small.into_iter().chain(large);
  cases.map(|(name, p, calls)| case(format!("circles: {name}"), &p, calls)).collect()
}

// Labels and chunk reach.

/// One external module, and chunks with these imports.
fn chunk_graph(order: &[u32], imports: &[[u32; 2]]) -> Project {
  let mut p = Project::default();
  p.push(NORMAL, [0, 0, 0, 0, 0, 0, 0, MARK]);
  p[ORDER] = order.to_vec();
  rows(&mut p, IMPORT_CHUNK, imports);
  p
}

/// The listing's chunks, with an edge added; a cycle behind a chunk and before another; what is refused.
fn chunks() -> Vec<Case> {
  let labels = |places| (Call::Labels, vec![places]);
  let reach = |chunk| (Call::Reach(chunk), vec![]);
  let two: [(&str, &[[u32; 2]], Vec<Asked>); 6] = [
    ("as in the listing", &[[0, 1]], vec![labels(4), labels(1), reach(2)]),
    ("edge 1 to 0 added", &[[0, 1], [1, 0]], vec![labels(4)]),
    ("edge 0 to 0 added", &[[0, 0], [0, 1]], vec![labels(4)]),
    ("a pair twice", &[[0, 1], [0, 1]], vec![labels(4)]),
    ("rows that fall", &[[1, 0], [0, 1]], vec![labels(4)]),
    ("a chunk that isn't there", &[[0, 2]], vec![labels(4), reach(2)]),
  ];
  let four = chunk_graph(&[0; 4], &[[0, 1], [1, 2], [2, 1], [2, 3]]);
  let mut cases = vec![case("chunks: four, of which 1 and 2 import each other".into(), &four, vec![labels(4), reach(0), reach(1), reach(3)])];
  for (name, imports, calls) in two {
    cases.push(case(format!("chunks: {name}"), &chunk_graph(&[1, 0], imports), calls));
  }
  cases
}

// Actual order and hosts.

/// Modules (normal, included and wrap of each), records, chunks with their members and imports; module 1 is the entry, of chunk 0.
fn loaded(modules: &[[u32; 3]], records: &[[u32; 3]], order: &[u32], members: &[[u32; 2]], imports: &[[u32; 2]]) -> Project {
  let mut p = Project::default();
  for &[normal, included, wrap] in modules {
    p.push(NORMAL, [normal, included, 0, 0, 0, wrap, MARK, MARK]);
  }
  rows(&mut p, RECORD_MODULE, records);
  p[ORDER] = order.to_vec();
  rows(&mut p, MEMBER_CHUNK, members);
  rows(&mut p, IMPORT_CHUNK, imports);
  p.push(ENTRY, [1, 0]);
  p
}

/// The listing; equal and unequal orders; hosts; what does nothing; what is refused; the deepest visits.
fn actual_orders() -> Vec<Case> {
  let plain = [[1, 1, 0]; 4];
  let of_entry = |name: &str, p: Project| case(format!("actual: {name}"), &p, vec![(Call::Actual(1), vec![4, 4])]);
  let one = |chunk: u32| {
    let mut p = loaded(&[[1, 1, 0]], &[], &[0], &[], &[]);
    (p[ENTRY][0], p[ENTRY_CHUNK][0]) = (0, chunk);
    p
  };
  let ask = |root: u32, hosts: usize| (Call::Actual(root), vec![1, hosts]);
  let mut deepest = modules(4_096, (0..4_095).map(|module| [module, module + 1]));
  deepest[WRAP][1..].fill(2);
  deepest[ORDER] = vec![5; 1_024];
  deepest.push(MEMBER_CHUNK, [1_023, 0]);
  (0..1_023).for_each(|chunk| deepest.push(IMPORT_CHUNK, [chunk, chunk + 1]));
  deepest.push(ENTRY, [0, 0]);
  vec![
    of_entry("the listing", listing()),
    of_entry(
      "chunk 0 imports 2 and 1, which have the same order",
      loaded(&plain, &[], &[0, 7, 7], &[[0, 1], [1, 2], [2, 3]], &[[0, 2], [0, 1]]),
    ),
    of_entry(
      "chunk 0 imports 1 and 2, of which 2 has the lower order; 2 imports 0",
      loaded(&plain, &[], &[0, 9, 1], &[[0, 1], [1, 2], [2, 3]], &[[0, 1], [0, 2], [2, 0]]),
    ),
    of_entry(
      "member 2 hosts module 3, and the wrapped root executes last",
      loaded(&[[1, 1, 0], [1, 1, 2], [1, 1, 0], [1, 1, 1]], &[[1, 0, 3], [2, 0, 3], [3, 1, 0]], &[0], &[[0, 1], [0, 2]], &[]),
    ),
    of_entry(
      "the wrapped root hosts modules 2 and 3; its dynamic import of 0 triggers nothing",
      loaded(
        &[[1, 1, 1], [1, 1, 2], [1, 1, 2], [1, 1, 1]],
        &[[1, 2, 0], [1, 1, 2], [1, 0, MARK], [2, 0, 3]],
        &[0],
        &[[0, 1]],
        &[],
      ),
    ),
    of_entry(
      "module 2 is external and 3 is not included",
      loaded(&[[1, 1, 0], [1, 1, 0], [0, 1, 1], [1, 0, 0]], &[[1, 0, 2]], &[0], &[[0, 3], [0, 2], [0, 1], [0, 1]], &[]),
    ),
    case("actual: one module".into(), &one(0), vec![ask(1, 1), ask(0, 0), ask(0, 1)]),
    case("actual: an entry without a chunk".into(), &one(MARK), vec![ask(0, 1)]),
    case("actual: chains of 1024 chunks and 4096 modules".into(), &deepest, vec![(Call::Actual(0), vec![4_096; 2])]),
  ]
}

// Risk.

/// Modules (included, sensitive and wrap of each), all normal with exports 1, records, chunks with their members and imports; module 1 is the entry, of
/// chunk 0.
fn risky(modules: &[[u32; 3]], records: &[[u32; 3]], order: &[u32], members: &[[u32; 2]], imports: &[[u32; 2]]) -> Project {
  let mut p = loaded(&vec![[1, 1, 0]; modules.len()], records, order, members, imports);
  for (module, &[included, sensitive, wrap]) in modules.iter().enumerate() {
    (p[INCLUDED][module], p[SENSITIVE][module], p[WRAP][module]) = (included, sensitive, wrap);
    (p[EXPORTS][module], p[CHUNK][module]) = (1, 0);
  }
  p
}

/// The listing; a case for each wrong turn, for each side of "in just one order", for a host and for a use; what is refused.
fn risks() -> Vec<Case> {
  let ask = |root: u32, places: usize| crate::judge::risks(root).map(|call| (call, vec![places])).to_vec();
  let (runtime, plain, sensitive) = ([1, 0, 0], [1, 0, 0], [1, 1, 0]);
  let wrapped = |row: [u32; 3]| [row[0], row[1], 1];
  let mut cyclic = listing();
  cyclic.push(IMPORT_CHUNK, [1, 0]);
  // Module 2 has two statements, of which the second is included, and uses its record in one or both.
  let using = |uses: &[[u32; 2]]| {
    let mut p = risky(&[runtime, plain, plain, wrapped(plain)], &[[1, 0, 2], [2, 0, 3]], &[0], &[[0, 1]], &[]);
    rows(&mut p, STATEMENT_MODULE, &[[2, 0], [2, 1]]);
    rows(&mut p, USE_STATEMENT, uses);
    p
  };
  let cases: [(&str, Project, Vec<Asked>); 9] = [
    ("the listing", listing(), [ask(1, 6), ask(1, 3), ask(1, 4), ask(4, 6), ask(2, 6)].concat()),
    ("edge 1 to 0 added", cyclic, ask(1, 6)),
    (
      "expected 2 3 4 1, actual 3 4 2 1: module 4 comes after 3 in both, and before 2 in one",
      risky(
        &[runtime, sensitive, sensitive, sensitive, sensitive],
        &[[1, 0, 2], [1, 0, 3], [1, 0, 4]],
        &[1, 0],
        &[[0, 2], [0, 1], [1, 3], [1, 4]],
        &[[0, 1]],
      ),
      ask(1, 6),
    ),
    (
      "module 3 is expected by way of 2, which isn't included",
      risky(&[runtime, sensitive, [0, 0, 0], sensitive], &[[1, 0, 2], [2, 0, 3]], &[0], &[[0, 3], [0, 1]], &[]),
      ask(1, 6),
    ),
    (
      "module 2 is required: it is in the actual order only",
      risky(&[runtime, sensitive, sensitive], &[[1, 1, 2]], &[0], &[[0, 1], [0, 2]], &[]),
      ask(1, 6),
    ),
    (
      "module 2 is in the expected order only",
      risky(&[runtime, sensitive, sensitive], &[[1, 0, 2]], &[0], &[[0, 1]], &[]),
      ask(1, 6),
    ),
    (
      "module 3 has a wrap, and is run early by 4, which stands in for it",
      risky(
        &[runtime, sensitive, sensitive, wrapped(sensitive), plain],
        &[[1, 0, 2], [1, 0, 4], [4, 0, 3]],
        &[1, 0],
        &[[0, 2], [0, 1], [1, 4]],
        &[[0, 1]],
      ),
      ask(1, 6),
    ),
    ("module 2 is sensitive by a use in its second statement", using(&[[1, 1], [0, 1]]), ask(1, 6)),
    ("the use is in a statement that isn't included", using(&[[0, 1]]), ask(1, 6)),
  ];
  cases.into_iter().map(|(name, p, calls)| case(format!("risk: {name}"), &p, calls)).collect()
}

// Replaced modules.

/// The sort, the expected order of a root and the plan from a seed, with a place a module.
fn three_calls(p: &Project, root: u32) -> Vec<Asked> {
  let n = p.modules();
  vec![(Call::Sort, vec![n; 2]), (Call::Expected(root), vec![n]), (Call::PlanFrom(vec![root]), vec![n])]
}

/// The longest chain, of which every module imports the first but the last, which has no record; a chain whose middle is external; what is read as written; 10
/// in the last row and against 5 and 6.
fn replaced() -> Vec<Case> {
  let mut cases = Vec::new();
  let chain = |step: usize| {
    let mut p = modules(4_096, (0..4_095).map(|module| [module, 0]));
    for module in 0..4_096 - step {
      p[NEWER][module] = (module + step) as u32;
    }
    p.push(DEPENDENCY_MODULE, [0, 1]);
    p.push(ORDER, [0]);
    p.push(MEMBER_CHUNK, [0, 0]);
    p.push(ENTRY, [0, 0]);
    p
  };
  for step in [1, 2, 4_095] {
    let p = chain(step);
    let mut calls = three_calls(&p, 0);
    calls.push((Call::Whole, vec![4_096]));
    cases.push(case(format!("replaced: 4096 modules, each superseded by the one {step} on"), &p, calls));
  }
  let mut small = modules(4, [[0, 1], [3, 0]].into_iter());
  small[NORMAL][2] = 0;
  small[NEWER] = vec![MARK, 2, 3, MARK];
  small.push(RECORD_MODULE, [3, 0, MARK]);
  small.push(ENTRY, [0, MARK]);
  small.push(ENTRY, [1, MARK]);
  cases.push(case("replaced: over an external, and a missing target".into(), &small, three_calls(&small, 0)));
  for (row, newer) in [(3, 3), (3, 2), (3, 4), (3, MARK - 1), (0, 0), (0, 4), (2, 1)] {
    let mut p = listing();
    p[NEWER][row] = newer;
    let calls = vec![
      (Call::Refusal, vec![]),
      (Call::Sort, vec![3; 2]),
      (Call::Expected(4), vec![3]),
      (Call::PlanFrom(vec![4]), vec![4]),
      (Call::Whole, vec![4]),
    ];
    cases.push(case(format!("replaced: module {row} by {newer}"), &p, calls));
  }
  cases
}

// Names, and the arrangement of members.

/// These names, an LF after each.
fn lines(names: &[&str]) -> Vec<u8> {
  names.iter().flat_map(|name| name.bytes().chain([b'\n'])).collect()
}

/// A call of each operation that reads members, and of the arrangement, with a place for each.
fn member_calls(p: &Project, root: u32) -> Vec<Asked> {
  let n = p.modules();
  vec![
    (Call::Arrangement, vec![p[MEMBER].len()]),
    (Call::Actual(root), vec![n; 2]),
    (Call::OrderRisk(root), vec![n]),
    (Call::Whole, vec![n]),
  ]
}

/// One chunk with all modules, the entry 1 and these names; the runtime's name comes first of all.
fn one_chunk(names: &[&str], sensitive: &[u32], members: &[u32]) -> Project {
  let mut p = Project::default();
  for &sensitive in sensitive {
    p.push(NORMAL, [1, 1, sensitive, 0, 1, 0, 0, MARK]);
  }
  p.push(ORDER, [0]);
  members.iter().for_each(|&member| p.push(MEMBER_CHUNK, [0, member]));
  p.push(ENTRY, [1, 0]);
  p.names = lines(names);
  p
}

/// `~` against `!`, names that differ in their last byte, the longest; rolldown's own; a member twice; unreached and external modules; numbers after replacement; each way to break the
/// form, against 1 and 3; no names; a slice too short; as many names as there are modules at most.
fn named() -> Vec<Case> {
  let mut cases = Vec::new();
  let mut add = |name: &str, p: &Project, calls: Vec<Asked>| cases.push(case(format!("names: {name}"), p, calls));
  let tilde = one_chunk(&["runtime", "entry", "!", "~", "a~", "a!", "a}"], &[0; 7], &[6, 5, 4, 3, 2, 1, 0]);
  add("`~` at the start comes before `!`, and inside after `}`", &tilde, member_calls(&tilde, 1));
  let long = "x".repeat(63);
  let longest: Vec<String> = ["b", "a", "~", "!", "c"].iter().map(|last| format!("{long}{last}")).collect();
  let longest: Vec<&str> = longest.iter().map(String::as_str).collect();
  let p = one_chunk(&longest, &[0; 5], &[0, 1, 2, 3, 4]);
  add("64 bytes, equal up to the last", &p, member_calls(&p, 1));
  let mut own = one_chunk(
    &["a", "rolldown:a", "~rolldown/a", "rolldown/a", "~rolldown:", "rolldown", "~rolldown", "rolldown:"],
    &[0, 1, 0, 1, 0, 0, 0, 0],
    &[0, 1, 2, 3, 4, 5, 6, 7],
  );
  for target in [7, 4, 2] {
    own.push(RECORD_MODULE, [1, 0, target]);
  }
  add("rolldown's own, and names that are nearly so", &own, member_calls(&own, 1));
  let mut twice = one_chunk(&["r", "e", "c", "b", "a"], &[0, 1, 0, 0, 1], &[4, 2, 3, 2, 1, 4, 0, 3]);
  twice.push(RECORD_MODULE, [1, 0, 4]);
  add("members twice", &twice, member_calls(&twice, 1));
  let mut unreached = one_chunk(&["r", "e", "d", "c", "b"], &[0, 1, 1, 0, 0], &[2, 4, 3, 1, 0]);
  unreached[NORMAL][3] = 0;
  for (kind, target) in [(0, 3), (2, MARK), (3, 4)] {
    unreached.push(RECORD_MODULE, [1, kind, target]);
  }
  add("one unreached, one external", &unreached, member_calls(&unreached, 1));
  let mut replaced = one_chunk(&["r", "e", "d", "c", "b"], &[0, 1, 1, 1, 1], &[4, 3, 2, 1, 0]);
  replaced[NEWER][2] = 4;
  for target in [2, 3, 4] {
    replaced.push(RECORD_MODULE, [1, 0, target]);
  }
  add("numbers after replacement", &replaced, member_calls(&replaced, 1));
  let mut two = listing();
  two.names = lines(&["~r", "entry", "b", "a"]);
  add("document 01's listing with names", &two, member_calls(&two, 1));
  two[SENSITIVE] = vec![0; 4];
  add("the same without sensitive modules", &two, member_calls(&two, 1));
  for short in [3, 4, 5] {
    add(&format!("{short} places"), &two, vec![(Call::Arrangement, vec![short])]);
  }
  let broken: [(&str, &str); 11] = [
    ("no name at all", ""),
    ("an empty line alone", "\n"),
    ("a line too few", "a\nb\nc\n"),
    ("a line too many", "a\nb\nc\nd\ne\n"),
    ("an empty line for a name", "a\n\nc\nd\n"),
    ("an empty line behind", "a\nb\nc\nd\n\n"),
    ("no LF at the end", "a\nb\nc\nd"),
    ("a space", "a\nb b\nc\nd\n"),
    ("a byte 127", "a\nb\x7f\nc\nd\n"),
    ("65 bytes", "a\nxxxxxxxxxxxxxxxxxxxxxxxxxxxxxxxxxxxxxxxxxxxxxxxxxxxxxxxxxxxxxxxxx\nc\nd\n"),
    ("a tab", "a\nb\nc\nd\t\n"),
  ];
  for (name, names) in broken {
    let p = Project { names: names.into(), ..listing() };
    add(name, &p, one_call_each(4).into_iter().filter(|call| !matches!(call, Call::Step(..) | Call::Takings(_))).map(|call| (call.clone(), vec![4; refusal::places(&p, &call).len()])).collect());
  }
  let refusals = || vec![(Call::Refusal, vec![]), (Call::Arrangement, vec![0])];
  let mut fallen = Project { names: lines(&["a"]), ..listing() };
  fallen[MEMBER_CHUNK].swap(0, 3);
  add("broken, and members fall", &fallen, refusals());
  let fallen = Project { names: lines(&["a", "b", "c", "d"]), ..fallen };
  add("members fall", &fallen, refusals());
  let mut uneven = Project { names: lines(&["a"]), ..listing() };
  uneven[MEMBER].pop();
  add("broken, and a column is too short", &uneven, refusals());
  // Each name of three bytes, in falling order; members as they rise.
  let mut many = Project::default();
  many.push(ORDER, [0]);
  for row in 0..4_096u32 {
    many.push(NORMAL, [1, 1, 0, 0, 1, 0, 0, MARK]);
    many.push(MEMBER_CHUNK, [0, row]);
    let place = 4_095 - row;
    many.names.extend([b'a' + (place / 256) as u8, b'0' + (place / 16 % 16) as u8, b'A' + (place % 16) as u8, b'\n']);
  }
  many.push(ENTRY, [0, 0]);
  add("4096 names", &many, vec![(Call::Arrangement, vec![4_096])]);
  cases
}
