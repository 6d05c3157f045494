// Random and small projects that meet ECMA-262's premises, and document 01's text form.

export class Random {
  constructor(seed) {
    this.state = BigInt(seed);
  }
  // splitmix64
  next() {
    const mask = (1n << 64n) - 1n;
    this.state = (this.state + 0x9e3779b97f4a7c15n) & mask;
    let z = this.state;
    z = ((z ^ (z >> 30n)) * 0xbf58476d1ce4e5b9n) & mask;
    z = ((z ^ (z >> 27n)) * 0x94d049bb133111ebn) & mask;
    return z ^ (z >> 31n);
  }
  below(end) {
    return Number(this.next() % BigInt(end));
  }
  coin(percent) {
    return this.below(100) < percent;
  }
}

const NAMES = [
  "runtime dynamic", "normal included sensitive reads exports wrap chunk newer", "module kind target", "module dependency",
  "module included", "statement record", "owner canonical", "symbol link", "statement form symbol", "reference depended",
  "order", "chunk member", "chunk imports", "entry chunk", "seed",
];

// A project has modules (rows), records, order, members, imports and entries, and may have dependencies; the other lists are empty.
export function listing(project) {
  const { modules, records, dependencies = [], order, members, imports, entries } = project;
  const lists = [
    [[0, 0]], modules.map((row) => [...row, "-"]), records, dependencies, [], [], [], [], [], [], order.map((value) => [value]), members, imports, entries, [],
  ];
  return NAMES.map((name, at) => [name, ...lists[at].map((row) => row.join(" ")), "", ""].join("\n")).join("");
}

// A module row: normal, included, sensitive, reads, exports, wrap, chunk; no module is superseded.
export const plainRow = (chunk) => [1, 1, 1, 0, 1, 0, chunk];

const rising = (rows) => rows.sort((a, b) => a[0] - b[0]);

function shuffle(random, rows) {
  for (let i = rows.length - 1; i > 0; i--) {
    const other = random.below(i + 1);
    [rows[i], rows[other]] = [rows[other], rows[i]];
  }
}

// Modules in one chunk whose records are all kind 0 with a target: cycles, self imports and repeats among them.
export function randomModules(random) {
  const count = 1 + random.below(12);
  const records = [];
  const wanted = random.below(3 * count + 1);
  const back = [0, 10, 50, 100][random.below(4)];
  for (let i = 0; i < wanted; i++) {
    const from = random.below(count);
    const on = from + 1 + random.below(4);
    records.push([from, 0, random.coin(back) || on >= count ? random.below(count) : on]);
  }
  const entries = [];
  for (let module = 0; module < count; module++) {
    if (module < 2 || random.coin(15)) entries.push([module, 0]);
  }
  return modulesOf(count, rising(records), entries);
}

function modulesOf(count, records, entries) {
  const all = Array.from({ length: count }, (_, module) => module);
  return {
    modules: all.map(() => plainRow(0)), records, order: [0], members: all.map((m) => [0, m]), imports: [], entries,
  };
}

// All graphs of three modules with at most two records each.
export function* smallModules() {
  const lists = [[]];
  for (let a = 0; a < 3; a++) {
    lists.push([a]);
    for (let b = 0; b < 3; b++) lists.push([a, b]);
  }
  for (const zero of lists) for (const one of lists) for (const two of lists) {
    const records = [zero, one, two].flatMap((targets, module) => targets.map((target) => [module, 0, target]));
    yield modulesOf(3, records, [[0, 0]]);
  }
}

// Chunks whose modules are unwrapped: cycles, self imports, members twice, modules not included; import rows in any order within a chunk.
export function randomChunks(random, ties) {
  const count = 1 + random.below(12);
  const chunks = 1 + random.below(6);
  const modules = Array.from({ length: count }, () => [1, random.coin(90) ? 1 : 0, 1, 0, 1, 0, random.below(chunks)]);
  const members = modules.map((row, module) => [row[6], module]);
  for (let i = random.below(3); i > 0; i--) members.push([random.below(chunks), random.below(count)]);
  shuffle(random, members);
  const imports = [];
  const back = [0, 30, 100][random.below(3)];
  for (let from = 0; from < chunks; from++) {
    for (let to = 0; to < chunks; to++) {
      if (random.coin(to > from ? 50 : back / 2)) imports.push([from, to]);
    }
  }
  shuffle(random, imports);
  const order = Array.from({ length: chunks }, (_, chunk) => (ties ? random.below(chunks + 1) : (chunk * 5 + 3) % 7));
  const entries = modules.map((row, module) => [module, row[6]]).filter(() => random.coin(40));
  if (entries.length === 0) entries.push([0, modules[0][6]]);
  modules[entries[0][0]][1] = 1;
  return { modules, records: [], order, members: rising(members), imports: rising(imports), entries };
}

const MISSING = "-";

// Chunks and records whose modules may be wrapped, external, not included or without a target: rings of modules and of chunks among them. Where `plain`, a
// project of the load theorem: all modules but the runtime are eligible, without a record of kind 1, and depend on what they import.
export function randomLoads(random, plain) {
  const { order, imports, members, modules, entries } = randomChunks(random, true);
  const count = modules.length;
  const records = [];
  const back = [20, 60, 100][random.below(3)];
  for (let i = random.below(3 * count + 1); i > 0; i--) {
    const from = random.below(count);
    const on = from + 1 + random.below(3);
    const to = random.coin(back) || on >= count ? random.below(count) : on;
    records.push([from, plain ? [0, 0, 0, 2][random.below(4)] : random.below(4), random.coin(5) ? MISSING : to]);
  }
  modules.forEach((row, module) => {
    row[2] = random.coin(70) ? 1 : 0;
    if (plain) row[1] = 1;
    else {
      row[0] = random.coin(92) ? 1 : 0;
      row[4] = random.below(3);
      row[5] = random.coin(30) ? 1 + random.below(2) : 0;
      if (row[0] === 0) for (let at = records.length - 1; at >= 0; at--) if (records[at][0] === module) records.splice(at, 1);
    }
  });
  if (plain) return plainOf(records, order, imports, members, modules, entries);
  const dependencies = records.filter(() => random.coin(60)).map(([from, , to]) => [from, to]).filter((row) => row[1] !== MISSING);
  return { modules, records: rising(records), dependencies, order, members, imports, entries };
}

// The runtime is in no record, and what no entry reaches isn't included.
function plainOf(all, order, imports, members, modules, rows) {
  const records = all.filter(([from, , to]) => from !== 0 && to !== 0);
  const entries = rows.filter(([entry]) => entry !== 0);
  const reached = new Set();
  const reach = (module) => {
    if (reached.has(module)) return;
    reached.add(module);
    records.filter(([from, kind, to]) => from === module && kind === 0 && to !== MISSING).forEach((row) => reach(row[2]));
  };
  entries.forEach(([entry]) => reach(entry));
  modules.forEach((row, module) => (row[1] = module === 0 || reached.has(module) ? 1 : 0));
  const dependencies = records.filter(([, kind, to]) => kind === 0 && to !== MISSING).map(([from, , to]) => [from, to]);
  return { modules, records: rising(records), dependencies, order, members, imports, entries };
}
