//! The inputs, each at a share of full size.
use compare::{
  generate::{self, Profile, Sizes},
  random::Random,
};
use project::{
  MARK, Project,
  column::*,
  text::{LONGEST, render},
};

/// A named project that is made when it is needed.
pub struct Shape {
  pub name: String,
  make: fn(usize, usize) -> Project,
  part: usize,
  entries: usize,
}

impl Shape {
  pub fn project(&self) -> Project {
    (self.make)(self.part, self.entries)
  }
}

/// Full tables, divided by `part`: random rows, 4,096 modules, 1,024 chunks, 16,384 rows in every other list. The entries are
/// the first modules, which reach most others, and all are analysed; the seed rows name 16 modules. Chunks import later
/// ones only, unless `cyclic`. No names: what arranging takes has shapes of its own.
fn full_tables(part: usize, entries: usize, cyclic: bool) -> Project {
  let (modules, chunks, rows) = (4_096 / part, 1_024 / part, 16_384 / part);
  let sizes = Sizes { modules, chunks, entries: 0, rows, seeds: rows, exact: true };
  let mut p = generate::project(&mut Random::new(5), sizes, Profile::Deep, false);
  p.names.clear();
  for entry in 0..entries.min(modules) {
    p[INCLUDED][entry] = 1;
    p.push(ENTRY, [entry as u32, (entry % (chunks / 4)) as u32]);
  }
  for seed in &mut p[SEED] {
    *seed = *seed % 16 * (modules as u32 / 16) + 7;
  }
  if !cyclic {
    let mut later: Vec<(u32, u32)> =
      p.pairs(IMPORT_CHUNK).map(|(a, b)| (a.min(b), a.max(b))).filter(|(a, b)| a != b).collect();
    later.sort_unstable();
    later.dedup();
    (p[IMPORT_CHUNK], p[IMPORTS]) = later.into_iter().unzip();
  }
  p
}

fn full(part: usize, entries: usize) -> Project {
  full_tables(part, entries, false)
}

/// The first `entries` modules after the runtime, in chunk 0.
fn first_entries(p: &mut Project, entries: usize) {
  for entry in 1..=entries.min(p.modules() - 1) {
    p.push(ENTRY, [entry as u32, 0]);
  }
}

/// All modules sensitive, each with records to the next four; chunks load so that all run in reverse.
fn fan(part: usize, entries: usize) -> Project {
  let (n, c, rows) = (4_096 / part, 1_024 / part, 16_384 / part);
  let mut p = Project::default();
  for module in 0..n {
    p.push(NORMAL, [1, 1, 1, 0, 1, 0, (module % c) as u32, MARK]);
  }
  for module in 1..n {
    for target in module + 1..(module + 5).min(n) {
      if p[RECORD_MODULE].len() < rows {
        p.push(RECORD_MODULE, [module as u32, 0, target as u32]);
        p.push(DEPENDENCY_MODULE, [module as u32, target as u32]);
      }
    }
  }
  for chunk in 0..c {
    p.push(ORDER, [chunk as u32]);
    for module in (chunk..n).step_by(c) {
      p.push(MEMBER_CHUNK, [chunk as u32, module as u32]);
    }
    for imported in chunk + 1..(chunk + 17).min(c) {
      if p[IMPORT_CHUNK].len() < rows {
        p.push(IMPORT_CHUNK, [chunk as u32, imported as u32]);
      }
    }
  }
  first_entries(&mut p, entries);
  p
}

/// One chunk of plain modules, of which the last is a seed and each other one imports the next.
fn row_of_modules(part: usize, reads: u32) -> Project {
  let n = 4_096 / part;
  let mut p = Project::default();
  p.push(ORDER, [0]);
  p.push(SEED, [n as u32 - 1]);
  for module in 0..n as u32 {
    p.push(NORMAL, [1, 1, 0, reads, 1, 0, 0, MARK]);
    p.push(MEMBER_CHUNK, [0, module]);
    if module > 0 && (module as usize) + 1 < n {
      p.push(RECORD_MODULE, [module, 0, module + 1]);
    }
  }
  p
}

/// One module after the other joins by (iii), in as many rounds as there are modules.
fn chain(part: usize, entries: usize) -> Project {
  let mut p = row_of_modules(part, 0);
  for row in 0..p[RECORD_MODULE].len() {
    let (module, target) = (p[RECORD_MODULE][row], p[RECORD_TARGET][row]);
    p.push(DEPENDENCY_MODULE, [module, target]);
  }
  first_entries(&mut p, entries);
  p
}

/// The same by (iv), each module with four statements, uses and references, the last of which touches the next module.
fn cascade(part: usize, entries: usize) -> Project {
  let mut p = row_of_modules(part, 1);
  let n = p.modules() as u32;
  for module in 0..n {
    p.push(OWNER, [module, module]);
  }
  for module in 1..n - 1 {
    for turn in 0..4 {
      let statement = p[STATEMENT_MODULE].len() as u32;
      p.push(STATEMENT_MODULE, [module, 1]);
      p.push(USE_STATEMENT, [statement, module - 1]);
      p.push(REFERENCE_STATEMENT, [statement, 0, if turn == 3 { module + 1 } else { 0 }]);
    }
  }
  first_entries(&mut p, entries);
  p
}

/// Sensitive siblings, each of which reads a symbol of the next; the last is a seed. Each joins after the next, and a worklist walks the entries for each.
fn backwards(part: usize, entries: usize) -> Project {
  let n = 4_096 / part;
  let mut p = Project::default();
  p.push(ORDER, [0]);
  p.push(SEED, [n as u32 - 1]);
  for module in 0..n as u32 {
    p.push(NORMAL, [1, 1, 1, 1, 1, 0, 0, MARK]);
    p.push(MEMBER_CHUNK, [0, module]);
    p.push(OWNER, [module, module]);
  }
  for sibling in entries as u32 + 1..n as u32 {
    p.push(RECORD_MODULE, [1, 0, sibling]);
  }
  for entry in 2..=entries as u32 {
    p.push(RECORD_MODULE, [entry, 0, 1]);
  }
  for sibling in entries as u32 + 1..n as u32 - 1 {
    let statement = p[STATEMENT_MODULE].len() as u32;
    p.push(STATEMENT_MODULE, [sibling, 1]);
    p.push(REFERENCE_STATEMENT, [statement, 0, sibling + 1]);
  }
  first_entries(&mut p, entries);
  p
}

/// As `full`, as large as a text of 61 KB allows.
fn text_sized(_: usize, entries: usize) -> Project {
  let fits = |part: &usize| render(&full(*part, entries)).len() <= LONGEST * 61 / 64;
  full((16..).find(fits).unwrap(), entries)
}

fn full_cyclic(part: usize, entries: usize) -> Project {
  full_tables(part, entries, true)
}

/// A name for each module: 64 bytes, of which the first 60 are equal, in scattered order.
fn give_names(p: &mut Project) {
  let n = p.modules();
  for row in 0..n {
    p.names.extend(format!("{:x>60}{:04}\n", "", row * 1_021 % n).bytes());
  }
}

/// One chunk of modules without a record and without the sensitive flag, each four times among the members.
fn leaves(part: usize, entries: usize) -> Project {
  let n = 4_096 / part;
  let mut p = Project::default();
  p.push(ORDER, [0]);
  for _ in 0..n {
    p.push(NORMAL, [1, 1, 0, 0, 1, 0, 0, MARK]);
  }
  for row in 0..4 * n as u32 {
    p.push(MEMBER_CHUNK, [0, row % n as u32]);
  }
  first_entries(&mut p, entries);
  give_names(&mut p);
  p
}

/// The fan, with names.
fn named_fan(part: usize, entries: usize) -> Project {
  let mut p = fan(part, entries);
  give_names(&mut p);
  p
}

type Maker = fn(usize, usize) -> Project;

fn shape(name: &str, size: &str, make: Maker, part: usize, entries: usize) -> Shape {
  let word = if entries == 1 { "entry" } else { "entries" };
  Shape { name: format!("{name}, {entries} {word}{size}"), make, part, entries }
}

/// Every shape at full size.
pub fn all() -> Vec<Shape> {
  let lines: [(&str, Maker, &[usize]); 7] = [
    ("full tables", full, &[1, 16, 256, 4_096]),
    ("full tables, cyclic chunks", full_cyclic, &[16]),
    ("fan", fan, &[1, 64]),
    ("chain", chain, &[1, 16]),
    ("cascade", cascade, &[1, 16]),
    ("backwards", backwards, &[1, 16]),
    ("text of 61 KB", text_sized, &[16]),
  ];
  let each = |(name, make, entries): (&'static str, Maker, &'static [usize])| {
    entries.iter().map(move |&entries| shape(name, "", make, 1, entries))
  };
  lines.into_iter().flat_map(each).collect()
}

/// The shapes with names.
pub fn named() -> Vec<Shape> {
  let lines: [(&str, Maker); 2] = [("leaves with names", leaves), ("fan with names", named_fan)];
  let sized = |(name, make): (&'static str, Maker)| {
    [(4, ", 1/4"), (2, ", 1/2"), (1, "")].map(|(part, size)| shape(name, size, make, part, 1))
  };
  lines.into_iter().flat_map(sized).collect()
}

/// Each shape at a quarter, half and full size.
pub fn growing() -> Vec<Shape> {
  let lines: [(&str, usize, Maker); 5] = [
    ("full tables", 16, full),
    ("fan", 16, fan),
    ("chain", 1, chain),
    ("cascade", 1, cascade),
    ("backwards", 1, backwards),
  ];
  let sized = |(name, entries, make): (&'static str, usize, Maker)| {
    [(4, ", 1/4"), (2, ", 1/2"), (1, "")]
      .map(|(part, size)| shape(name, size, make, part, entries))
  };
  lines.into_iter().flat_map(sized).collect()
}
