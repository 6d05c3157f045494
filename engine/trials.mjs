// A load with a plan carried out: chunks whose wrapped modules are exported functions, and what runs.
import { importsOf, orderOf } from "./files.mjs";

const NORMAL = 0, INCLUDED = 1, WRAP = 5;

// The modules that execute: normal and included.
const executes = ({ modules }, module) => modules[module][NORMAL] === 1 && modules[module][INCLUDED] === 1;

// Whether a module is wrapped, as written or by the plan.
const isWrapped = ({ modules }, plan, module) => modules[module][WRAP] !== 0 || plan.has(module);

// The calls of a module's wrapped targets of kind 0 and 1 that execute, in record order.
function calls(project, plan, module) {
  const targets = project.records.filter(([from, kind, to]) => from === module && kind < 2 && to !== "-").map((row) => row[2]);
  return targets.filter((to) => isWrapped(project, plan, to) && executes(project, to));
}

const callsOf = (targets) => targets.map((to) => `  run${to}(host);\n`).join("");
const functionsOf = (targets) => [...new Set(targets)].map((to) => `import { run${to} } from "./w${to}.mjs";\n`).join("");

// A wrapped module: a file beside the chunks that exports a function, so that calling it loads no chunk. It runs its wrapped targets first, then itself, once.
function wrappedFile(project, plan, module) {
  const targets = calls(project, plan, module);
  return `${functionsOf(targets.filter((to) => to !== module))}export function run${module}(host) {\n  if (!begins(${module})) return;\n${callsOf(targets)}  ran(${module}, host);\n}\n`;
}

// A chunk: its imports in load order, then its eager members, each its own host.
function chunkFile(project, plan, chunk) {
  const { order, imports, members } = project;
  const imported = imports.filter((row) => row[0] === chunk).map((row) => row[1]);
  imported.sort((a, b) => order[a] - order[b]);
  const eager = members.filter(([of, module]) => of === chunk && executes(project, module) && !isWrapped(project, plan, module)).map((row) => row[1]);
  const functions = functionsOf(eager.flatMap((module) => calls(project, plan, module)));
  const body = (module) => `if (begins(${module})) {\n  const host = ${module};\n${callsOf(calls(project, plan, module))}  ran(${module}, host);\n}\n`;
  return functions + importsOf(imported.map((other) => `c${other}.mjs`)) + eager.map(body).join("");
}

// The files of a load, and the one that an entry's load starts at: its chunk, and last the entry, if it is wrapped.
function loadFiles(project, plan, entry, chunk) {
  const files = {};
  project.modules.forEach((_, module) => {
    if (isWrapped(project, plan, module) && executes(project, module)) files[`w${module}.mjs`] = wrappedFile(project, plan, module);
  });
  project.order.forEach((_, at) => (files[`c${at}.mjs`] = chunkFile(project, plan, at)));
  const last = files[`w${entry}.mjs`] === undefined ? "" : `run${entry}(${entry});\n`;
  files["load.mjs"] = (last && functionsOf([entry])) + importsOf([`c${chunk}.mjs`]) + last;
  return files;
}

// What a load runs: for each place a module and its host.
export function loadOf(project, plan, entry, chunk) {
  return orderOf(loadFiles(project, plan, entry, chunk), "load.mjs");
}

// Whether a project is plain: each normal module that is reached is eligible, has no record of kind 1, and its normal targets of kind 0 are among its
// dependencies; and every member that executes is reached, or the runtime (module 0) without a record.
export function isPlain({ modules, records, dependencies, members, entries }) {
  const normal = (module) => module !== "-" && modules[module][NORMAL] === 1;
  const imports = (module) => records.filter(([from, kind, to]) => from === module && kind === 0 && normal(to)).map((row) => row[2]);
  const reached = new Set();
  const reach = (module) => {
    if (reached.has(module) || !normal(module)) return;
    reached.add(module);
    imports(module).forEach(reach);
  };
  entries.filter(([entry, chunk]) => chunk !== "-" && modules[entry][INCLUDED] === 1).forEach(([entry]) => reach(entry));
  const eligible = (module) => {
    const [isNormal, included, , , exports, wrap] = modules[module];
    return module !== 0 && isNormal === 1 && included === 1 && exports < 2 && wrap === 0;
  };
  const depends = (module, to) => dependencies.some(([from, on]) => from === module && on === to);
  const fits = (module) => eligible(module) && !records.some(([from, kind]) => from === module && kind === 1) && imports(module).every((to) => depends(module, to));
  const belongs = (module) => reached.has(module) || (module === 0 && !records.some((row) => row[0] === 0));
  const runs = (module) => modules[module][NORMAL] === 1 && modules[module][INCLUDED] === 1;
  return [...reached].every(fits) && members.every(([, module]) => !runs(module) || belongs(module));
}
