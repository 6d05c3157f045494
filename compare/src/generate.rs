//! Random projects that pass tests 1 to 4. Each draws its own densities, so that every list, rule and rare shape occurs:
//! cycles of modules and chunks, self edges, wraps, externals, modules not included, uses, symbols and their chains, the
//! same member in several chunks or twice in one, a `chunk` column that disagrees with the member rows, entries without
//! chunk or not included, seeds that aren't eligible, repeated rows; names that begin alike, rolldown's own and nearly so, with `~` at the start and inside.
use project::{MARK, Project, column::*};

use crate::random::Random;

/// Upper bounds of a project's lists. `exact`: just these sizes, where they can be had.
#[derive(Clone, Copy)]
pub struct Sizes {
  pub modules: usize,
  pub chunks: usize,
  pub entries: usize,
  /// Every other list.
  pub rows: usize,
  pub seeds: usize,
  pub exact: bool,
}

impl Sizes {
  pub fn up_to(modules: usize) -> Self {
    Self { modules, chunks: modules / 2, entries: 4, rows: 3 * modules, seeds: 3, exact: false }
  }
}

/// What a project is like.
#[derive(Clone, Copy, PartialEq, Eq, Debug)]
pub enum Profile {
  /// Nearly all normal, included and ESM; some sensitive, few wraps.
  Calm,
  /// Every column even.
  Wild,
  /// Deep static graphs, mixed.
  Deep,
  /// Chunks laid out as a bundler would, with a few changes.
  Laid,
  /// As laid; hardly any module is sensitive, so that (iii) and (iv) decide.
  Touch,
  /// As laid; sensitive by uses of records to wrapped modules.
  Wake,
}

pub const PROFILES: [Profile; 6] =
  [Profile::Calm, Profile::Wild, Profile::Deep, Profile::Laid, Profile::Touch, Profile::Wake];

/// The shares of a profile.
struct Shares {
  normal: f64,
  included: f64,
  sensitive: f64,
  reads: f64,
  /// exports 0 or 1
  esm: f64,
  wrap: f64,
  /// Member rows that differ from the `chunk` column.
  disagree: f64,
  kinds: &'static [u32],
  /// Record targets that may go back: cycles of modules.
  back: f64,
  near: bool,
}

impl Shares {
  fn draw(r: &mut Random, profile: Profile) -> Self {
    let (back, near) = (r.pick(&[0.0, 0.1, 0.4]), r.coin(0.5));
    match profile {
      Profile::Calm => Self {
        normal: 0.97,
        included: 0.97,
        sensitive: r.pick(&[0.2, 0.5, 0.9]),
        reads: r.pick(&[0.2, 0.6]),
        esm: 0.97,
        wrap: r.pick(&[0.0, 0.05, 0.2]),
        disagree: 0.05,
        kinds: &[0, 0, 0, 0, 0, 0, 0, 0, 0, 0, 0, 0, 1, 2],
        back,
        near,
      },
      Profile::Wild => Self {
        normal: 0.7,
        included: 0.7,
        sensitive: 0.5,
        reads: 0.5,
        esm: 0.67,
        wrap: 0.5,
        disagree: 0.6,
        kinds: &[0, 0, 1, 2, 3],
        back,
        near,
      },
      Profile::Deep => Self {
        normal: 0.93,
        included: r.pick(&[0.8, 0.95]),
        sensitive: r.pick(&[0.1, 0.3, 0.7]),
        reads: r.pick(&[0.3, 0.8]),
        esm: 0.9,
        wrap: r.pick(&[0.1, 0.3]),
        disagree: r.pick(&[0.05, 0.3]),
        kinds: &[0, 0, 0, 0, 0, 0, 0, 0, 1, 1, 2, 3],
        back,
        near,
      },
      Profile::Laid => Self {
        normal: r.pick(&[0.9, 1.0]),
        included: r.pick(&[0.85, 1.0]),
        sensitive: r.pick(&[0.15, 0.3, 0.6]),
        reads: r.pick(&[0.5, 0.9]),
        esm: r.pick(&[0.85, 1.0]),
        wrap: r.pick(&[0.0, 0.1, 0.25]),
        disagree: r.pick(&[0.0, 0.05]),
        kinds: r.pick(&[&[0], &[0, 0, 0, 0, 0, 0, 0, 0, 1, 2], &[0, 0, 0, 0, 0, 1, 1, 2, 3]]),
        back,
        near,
      },
      Profile::Touch => Self {
        normal: 0.97,
        included: r.pick(&[0.75, 0.95]),
        sensitive: r.pick(&[0.0, 0.1]),
        reads: r.pick(&[0.5, 1.0]),
        esm: 0.97,
        wrap: 0.03,
        disagree: 0.0,
        kinds: r.pick(&[&[0], &[0, 0, 0, 1]]),
        back,
        near,
      },
      Profile::Wake => Self {
        normal: r.pick(&[0.8, 0.95]),
        included: r.pick(&[0.8, 0.95]),
        sensitive: r.pick(&[0.0, 0.15]),
        reads: 0.2,
        esm: 0.95,
        wrap: r.pick(&[0.25, 0.4]),
        disagree: 0.1,
        kinds: r.pick(&[&[0, 0, 0, 1], &[0, 0, 1, 1, 2, 3]]),
        back,
        near,
      },
    }
  }
}

type Pair = (u32, u32);

struct Maker<'r> {
  r: &'r mut Random,
  sizes: Sizes,
  /// How many rows the other lists may have.
  rows: usize,
  profile: Profile,
  ties: bool,
  shares: Shares,
  n: usize,
  c: usize,
  p: Project,
}

/// A random project. Where `ties` is false, no chunk imports two chunks of equal `order`.
pub fn project(r: &mut Random, sizes: Sizes, profile: Profile, ties: bool) -> Project {
  let laid = matches!(profile, Profile::Laid | Profile::Touch | Profile::Wake) && !sizes.exact;
  let n = if sizes.exact {
    sizes.modules
  } else {
    r.from_to(if laid { sizes.modules.min(5) } else { 1 }, sizes.modules)
  };
  let c = if sizes.exact { sizes.chunks } else { r.from_to(0, sizes.chunks) };
  let rows = if profile == Profile::Touch { sizes.rows.min(n + n / 2) } else { sizes.rows };
  let shares = Shares::draw(r, profile);
  let mut maker = Maker { r, sizes, rows, profile, ties, shares, n, c, p: Project::default() };
  maker.modules();
  maker.records(laid);
  maker.dependencies();
  maker.statements();
  maker.symbols();
  if c > 0 && laid {
    maker.laid_chunks();
  } else {
    maker.any_chunks();
  }
  maker.seeds(laid);
  maker.newer();
  maker.names();
  maker.p
}

impl Maker<'_> {
  /// How many rows a list gets: full, half or nearly empty, for a sparse list makes each of its rows matter.
  fn size(&mut self, most: usize) -> usize {
    if self.sizes.exact {
      return most;
    }
    let bound = self.r.pick(&[most, most, most / 2 + 1, most / 4 + 1, most / 8 + 1]);
    self.r.from_to(0, most.min(bound))
  }

  fn module(&mut self) -> u32 {
    self.r.row(self.n)
  }

  fn chunk(&mut self) -> u32 {
    self.r.row(self.c)
  }

  fn modules(&mut self) {
    for _ in 0..self.n {
      let exports = if self.r.coin(self.shares.esm) { self.r.pick(&[0, 1, 1, 1]) } else { 2 };
      let wrap = if self.r.coin(self.shares.wrap) { self.r.pick(&[1, 2]) } else { 0 };
      let normal = self.r.flag(self.shares.normal);
      let included = self.r.flag(self.shares.included);
      let sensitive = self.r.flag(self.shares.sensitive);
      let reads = self.r.flag(self.shares.reads);
      self.p.push(NORMAL, [normal, included, sensitive, reads, exports, wrap, MARK, MARK]);
    }
    let any = self.module();
    self.p.runtime = self.r.pick(&[0, 0, 0, any]);
    self.p.dynamic = self.r.flag(0.3);
    if self.r.coin(0.8) {
      let runtime = self.p.runtime as usize;
      self.p[NORMAL][runtime] = 1;
      self.p[INCLUDED][runtime] = 1;
    }
  }

  /// In two of five projects the modules have names, mostly different ones.
  fn names(&mut self) {
    if !self.r.coin(0.4) {
      return;
    }
    let beginning = self.r.pick(&["", "", "", "a", "a-beginning-that-all-names-have-in-common-and-that-is-long/"]);
    let own = self.r.pick(&[0.1, 0.4]);
    let repeats = self.r.coin(0.15);
    let mut seen = std::collections::HashSet::new();
    for _ in 0..self.n {
      let mut name = self.name(beginning, own);
      while !repeats && seen.contains(&name) {
        name = self.name(beginning, own);
      }
      self.p.names.extend(&name);
      self.p.names.push(b'\n');
      seen.insert(name);
    }
  }

  fn name(&mut self, beginning: &str, own: f64) -> Vec<u8> {
    const BEGINNINGS: [&str; 8] = ["rolldown:", "~rolldown/", "~rolldown/", "rolldown/", "~rolldown:", "rolldown", "~rolldow", "~~rolldown/"];
    let mut name = if self.r.coin(own) { self.r.pick(&BEGINNINGS).into() } else { beginning.to_string() };
    let most = if self.n > 64 { 4 } else { 3 };
    for _ in 0..self.r.from_to(1, most) {
      name.push(self.r.pick(&['~', '~', '!', '}', 'a', 'b', 'A', '0', '/', ':']));
    }
    name.into_bytes()
  }

  /// In half of the projects some modules are superseded by later ones, near or far.
  fn newer(&mut self) {
    let share = self.r.pick(&[0.0, 0.0, 0.1, 0.4]);
    let near = self.r.coin(0.5);
    for module in 0..self.n - 1 {
      if self.r.coin(share) {
        let last = if near { (module + 3).min(self.n - 1) } else { self.n - 1 };
        self.p[NEWER][module] = self.r.from_to(module + 1, last) as u32;
      }
    }
  }

  fn normals(&self) -> Vec<u32> {
    (0..self.n as u32).filter(|&m| self.p[NORMAL][m as usize] == 1).collect()
  }

  /// Mostly forwards, so that low modules lead to high ones.
  fn target(&mut self, from: u32) -> u32 {
    if self.r.coin(self.shares.back) {
      return self.module();
    }
    let target = if self.shares.near {
      from as usize + 1 + self.r.below(3) * self.r.below(3)
    } else {
      self.r.from_to(from as usize + 1, self.n.max(from as usize + 1))
    };
    if target < self.n { target as u32 } else { self.module() }
  }

  fn records(&mut self, laid: bool) {
    let normals = self.normals();
    if normals.is_empty() {
      return;
    }
    let hot: Vec<u32> = (0..normals.len() / 3 + 1).map(|_| self.r.pick(&normals)).collect();
    let mut records: Vec<(u32, u32, u32)> = Vec::new();
    for _ in 0..self.size(self.rows) {
      let from = if self.r.coin(0.3) { self.r.pick(&hot) } else { self.r.pick(&normals) };
      let target = if self.r.coin(0.04) { MARK } else { self.target(from) };
      records.push((from, self.r.pick(self.shares.kinds), target));
    }
    if laid && self.r.coin(0.85) {
      // A tree of kind 0 below the low rows, so that an entry reaches nearly all.
      records.truncate(self.r.below(self.n));
      for target in 2..self.n as u32 {
        let above: Vec<u32> =
          normals.iter().copied().filter(|&m| m > 0 && m < target && m + 5 >= target).collect();
        if !above.is_empty() && records.len() < self.sizes.rows {
          records.push((self.r.pick(&above), 0, target));
        }
      }
      self.r.shuffle(&mut records);
    }
    records.sort_by_key(|record| record.0);
    for (module, kind, target) in records {
      self.p.push(RECORD_MODULE, [module, kind, target]);
    }
  }

  /// The record rows of each module.
  fn record_rows(&self) -> Vec<Vec<u32>> {
    let mut rows = vec![Vec::new(); self.n];
    for (row, &module) in self.p[RECORD_MODULE].iter().enumerate() {
      rows[module as usize].push(row as u32);
    }
    rows
  }

  /// Modules with a target by kind 0.
  fn imports(&self) -> Vec<Pair> {
    let (kinds, targets) = (&self.p[RECORD_KIND], &self.p[RECORD_TARGET]);
    (0..kinds.len())
      .filter(|&row| kinds[row] == 0 && targets[row] != MARK)
      .map(|row| (self.p[RECORD_MODULE][row], targets[row]))
      .collect()
  }

  /// Often what a module imports, also through a target that isn't included.
  fn dependencies(&mut self) {
    let imports = self.imports();
    for _ in 0..self.size(self.rows) {
      if imports.is_empty() || self.r.coin(0.25) {
        let row = [self.module(), self.module()];
        self.p.push(DEPENDENCY_MODULE, row);
        continue;
      }
      let (module, mut target) = self.r.pick(&imports);
      for _ in 0..3 {
        let through = if self.p[INCLUDED][target as usize] == 1 { 0.2 } else { 0.8 };
        let on: Vec<u32> =
          imports.iter().filter(|row| row.0 == target).take(20).map(|row| row.1).collect();
        if on.is_empty() || !self.r.coin(through) {
          break;
        }
        target = self.r.pick(&on);
      }
      self.p.push(DEPENDENCY_MODULE, [module, target]);
    }
  }

  fn statements(&mut self) {
    let normals = self.normals();
    if normals.is_empty() {
      return;
    }
    let count = self.size(self.rows);
    let mut of: Vec<u32> = (0..count).map(|_| self.r.pick(&normals)).collect();
    of.sort_unstable();
    for module in of {
      let included = self.r.flag(0.65);
      self.p.push(STATEMENT_MODULE, [module, included]);
    }
    let records = self.record_rows();
    let users: Vec<u32> = (0..count as u32)
      .filter(|&row| !records[self.p[STATEMENT_MODULE][row as usize] as usize].is_empty())
      .collect();
    if users.is_empty() {
      return;
    }
    for _ in 0..self.size(self.rows) {
      let statement = self.r.pick(&users);
      let record = self.r.pick(&records[self.p[STATEMENT_MODULE][statement as usize] as usize]);
      self.p.push(USE_STATEMENT, [statement, record]);
    }
  }

  fn symbols(&mut self) {
    let symbols = self.size(self.rows);
    for symbol in 0..symbols {
      let canonical = if self.r.coin(0.5) { symbol as u32 } else { self.r.row(symbols) };
      let owner = self.module();
      self.p.push(OWNER, [owner, canonical]);
    }
    if symbols > 0 {
      for _ in 0..self.size(self.rows) {
        let link = [self.r.row(symbols), self.r.row(symbols)];
        self.p.push(CHAIN_SYMBOL, link);
      }
    }
    let statements = self.p[STATEMENT_MODULE].len();
    if statements == 0 {
      return;
    }
    for _ in 0..self.size(self.rows) {
      let form = if symbols == 0 { 2 } else { self.r.row(3) };
      let without = symbols == 0 || (form == 2 && self.r.coin(0.4));
      let symbol = if without { MARK } else { self.r.row(symbols) };
      let statement = self.r.row(statements);
      self.p.push(REFERENCE_STATEMENT, [statement, form, symbol]);
    }
    let forms = &self.p[REFERENCE_FORM];
    let resolved: Vec<u32> =
      (0..forms.len() as u32).filter(|&row| forms[row as usize] == 2).collect();
    if symbols > 0 && !resolved.is_empty() {
      for _ in 0..self.size(self.rows) {
        let row = [self.r.pick(&resolved), self.r.row(symbols)];
        self.p.push(DEPENDED_REFERENCE, row);
      }
    }
  }

  fn put_pairs(&mut self, first: usize, mut pairs: Vec<Pair>) {
    pairs.sort_by_key(|pair| pair.0);
    for (a, b) in pairs {
      self.p.push(first, [a, b]);
    }
  }

  /// Chunks as a bundler lays them out: runs of modules in an order of dependency, imports that follow the records.
  fn laid_chunks(&mut self) {
    let wanted = self.r.from_to(1, self.sizes.entries.max(1));
    let entries: Vec<u32> =
      (0..self.n as u32).filter(|&m| m != self.p.runtime).take(wanted).collect();
    let mut roots = vec![self.p.runtime];
    roots.extend(&entries);
    let mut cuts: Vec<usize> = (1..self.c).map(|_| self.r.below(self.n + 1)).collect();
    cuts.sort_unstable();
    let mut members: Vec<Pair> = Vec::new();
    for (at, module) in self.in_dependency_order(&roots).into_iter().enumerate() {
      let laid = cuts.iter().filter(|&&cut| cut <= at).count() as u32;
      let chunk = if self.r.coin(0.05) { self.chunk() } else { laid };
      self.p[CHUNK][module as usize] = chunk;
      members.push((chunk, module));
    }
    for _ in 0..self.r.pick(&[0, 0, 0, 1, 2]) {
      let (a, b) = (self.r.below(members.len()), self.r.below(members.len()));
      (members[a].1, members[b].1) = (members[b].1, members[a].1);
    }
    if self.r.coin(self.shares.disagree) {
      let row = (self.chunk(), self.module());
      members.push(row);
    }
    self.put_pairs(MEMBER_CHUNK, members);

    let mut imports: Vec<Pair> = Vec::new();
    let backwards = self.r.pick(&[0.0, 0.3]);
    for row in 0..self.p[RECORD_MODULE].len() {
      let target = self.p[RECORD_TARGET][row];
      if self.p[RECORD_KIND][row] > 1 || target == MARK {
        continue;
      }
      let from = self.p[CHUNK][self.p[RECORD_MODULE][row] as usize];
      let to = self.p[CHUNK][target as usize];
      let pair = (from, to);
      if from != to && !imports.contains(&pair) && (from > to || self.r.coin(backwards)) {
        imports.push(pair);
      }
    }
    let further = (self.chunk(), self.chunk());
    if self.r.coin(0.15) && !imports.contains(&further) {
      imports.push(further);
    }
    imports.truncate(self.sizes.rows);
    self.r.shuffle(&mut imports);
    self.put_pairs(IMPORT_CHUNK, imports);
    let mut orders: Vec<u32> = (0..self.c as u32).collect();
    if self.r.coin(0.2) {
      let (a, b) = (self.r.below(self.c), self.r.below(self.c));
      orders.swap(a, b);
    }
    if self.ties {
      orders.iter_mut().for_each(|order| *order /= 2);
    }
    self.p[ORDER] = orders;
    for entry in entries {
      if self.r.coin(0.95) {
        self.p[INCLUDED][entry as usize] = 1;
      }
      let chunk = if self.r.coin(0.05) { MARK } else { self.p[CHUNK][entry as usize] };
      self.p.push(ENTRY, [entry, chunk]);
    }
  }

  /// Each module after what it imports or requires; those that no root reaches come last.
  fn in_dependency_order(&self, roots: &[u32]) -> Vec<u32> {
    let records = self.record_rows();
    let mut met = vec![false; self.n];
    let mut order = Vec::new();
    let all: Vec<u32> = (0..self.n as u32).collect();
    for &root in roots.iter().chain(&all) {
      let mut stack = vec![(root, 0)];
      while let Some((module, at)) = stack.pop() {
        if at == 0 && std::mem::replace(&mut met[module as usize], true) {
          continue;
        }
        let Some(&row) = records[module as usize].get(at) else {
          order.push(module);
          continue;
        };
        stack.push((module, at + 1));
        let target = self.p[RECORD_TARGET][row as usize];
        if self.p[RECORD_KIND][row as usize] < 2 && target != MARK {
          stack.push((target, 0));
        }
      }
    }
    order
  }

  fn any_chunks(&mut self) {
    if self.c > 0 {
      self.any_members();
      self.any_imports();
      self.orders();
    }
    self.any_entries();
  }

  fn any_members(&mut self) {
    for module in 0..self.n {
      self.p[CHUNK][module] = if self.r.coin(0.1) { MARK } else { self.chunk() };
    }
    let most = self.size(self.sizes.rows);
    let mut members: Vec<Pair> = Vec::new();
    for module in 0..self.n {
      let chunk = self.p[CHUNK][module];
      if members.len() < most && chunk != MARK && !self.r.coin(self.shares.disagree) {
        members.push((chunk, module as u32));
      }
    }
    let room = most - members.len();
    let further = if self.sizes.exact { room } else { self.r.from_to(0, room.min(1 + self.n / 3)) };
    for _ in 0..further {
      let row = (self.chunk(), self.module());
      members.push(row);
    }
    match self.r.below(3) {
      0 => self.r.shuffle(&mut members),
      1 => members.sort_by_key(|row| std::cmp::Reverse(row.1)),
      _ => members.sort_by_key(|row| row.1),
    }
    self.put_pairs(MEMBER_CHUNK, members);
  }

  fn any_imports(&mut self) {
    let backwards = self.r.pick(&[0.0, 0.05, 0.5, 1.0]);
    let wanted = self.size(self.sizes.rows.min(self.c * self.c));
    let mut there = vec![false; self.c * self.c];
    let mut imports: Vec<Pair> = Vec::new();
    for _ in 0..wanted * if self.sizes.exact { 8 } else { 1 } {
      let from = self.chunk();
      let to = if self.sizes.exact || self.r.coin(backwards) {
        self.chunk()
      } else if self.r.coin(0.02) {
        from
      } else if (from as usize) + 1 < self.c {
        self.r.from_to(from as usize + 1, self.c - 1) as u32
      } else {
        continue;
      };
      let place = from as usize * self.c + to as usize;
      if imports.len() < wanted && !std::mem::replace(&mut there[place], true) {
        imports.push((from, to));
      }
    }
    self.r.shuffle(&mut imports);
    self.put_pairs(IMPORT_CHUNK, imports);
  }

  fn orders(&mut self) {
    let mut orders: Vec<u32> = (0..self.c as u32).collect();
    if self.ties {
      orders = (0..self.c).map(|_| self.r.row(self.c / 2 + 1)).collect();
      self.p[ORDER] = orders;
      return;
    }
    self.r.shuffle(&mut orders);
    if self.r.coin(0.2) {
      // Wide values, the largest that may stand among them.
      let step = (MARK - 1) / self.c as u32;
      for order in &mut orders {
        *order = MARK - 1 - *order * step;
      }
    } else if self.r.coin(0.4) {
      // Equal values where no chunk imports both.
      let narrow: Vec<u32> = orders.iter().map(|order| order / 2).collect();
      self.p[ORDER] = narrow;
      if !self.p.tied() {
        return;
      }
    }
    self.p[ORDER] = orders;
  }

  fn any_entries(&mut self) {
    let wanted = if self.sizes.exact {
      self.sizes.entries
    } else {
      let least = usize::from(!self.r.coin(0.1));
      self.r.from_to(least, self.sizes.entries.max(1))
    };
    let mut modules: Vec<u32> = (0..self.n as u32).collect();
    self.r.shuffle(&mut modules);
    if self.r.coin(0.7) {
      let quarter = (self.n as u32 / 4).max(1);
      modules.sort_by_key(|module| module / quarter);
    }
    modules.truncate(wanted);
    self.r.shuffle(&mut modules);
    for entry in modules {
      if self.r.coin(0.75) {
        self.p[INCLUDED][entry as usize] = 1;
      }
      let own = self.p[CHUNK][entry as usize];
      let chunk = if self.c == 0 || self.r.coin(0.08) {
        MARK
      } else if own != MARK && self.r.coin(0.8) {
        own
      } else {
        self.chunk()
      };
      self.p.push(ENTRY, [entry, chunk]);
    }
  }

  fn seeds(&mut self, laid: bool) {
    let few = if laid { 1 } else { 0 };
    let many = self.r.from_to(0, self.sizes.seeds);
    let count = if self.sizes.exact { self.sizes.seeds } else { self.r.pick(&[0, few, 1, many]) };
    for _ in 0..count {
      let seed = self.module();
      self.p.push(SEED, [seed]);
    }
    if self.profile == Profile::Touch && count == 0 && self.r.coin(0.7) {
      let seed = self.module();
      self.p.push(SEED, [seed]);
    }
  }
}
