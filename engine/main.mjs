// node main.mjs PROGRAM [--tries PATH] [--seed S] [--count N] [--no-ties]: compares a program's orders with this engine's. See README.md.
import { spawnSync } from "node:child_process";
import { parseArgs } from "node:util";
import { chunkFiles, cleared, moduleFiles, orderOf } from "./files.mjs";
import { cases } from "./outside.mjs";
import { Random, listing, randomChunks, randomLoads, randomModules, smallModules } from "./projects.mjs";
import { isPlain, loadOf } from "./trials.mjs";

const { values: flags, positionals: [program] } = parseArgs({
  allowPositionals: true,
  options: {
    seed: { type: "string", default: "1" },
    count: { type: "string", default: "2000" },
    "no-ties": { type: "boolean", default: false },
    tries: { type: "string" },
  },
});

// What a program prints of a listing.
function printed(program, text, ...words) {
  const run = spawnSync(program, words, { input: text, encoding: "utf8" });
  if (run.status !== 0) throw new Error(`${program} failed on\n${text}${run.stderr}`);
  return run.stdout.split("\n").slice(0, -1);
}

// The program's lines of a listing: for a word and an entry, its numbers.
const linesOf = (text) => printed(program, text).map((line) => line.split(" "));

const lineOf = (lines, word, entry) => lines.find((line) => line[0] === word && line[1] === String(entry))?.slice(2).join(" ");

const tally = { expected: 0, actual: 0, cycles: 0, selves: 0, ties: 0, modules: 0 };
const tried = { loads: 0, places: 0, planned: 0, hosted: 0, rings: 0, plain: 0, reordered: 0 };

function hasCycle(rows) {
  const reaches = (from, to, met = new Set()) =>
    rows.some(([a, b]) => a === from && (b === to || (!met.has(b) && reaches(b, to, met.add(b)))));
  return rows.some(([a]) => reaches(a, a));
}

// Whether a chunk imports two chunks of the same order, the higher in the earlier row.
function hasTie({ imports, order }) {
  const tied = ([a, b], [c, d]) => a === c && order[b] === order[d] && b > d;
  return imports.some((row, at) => imports.slice(at + 1).some((later) => tied(row, later)));
}

// Compares a project's orders of each entry; `rootOf` says which file an entry's run starts at.
async function compare(project, word, files, rootOf) {
  const lines = linesOf(listing(project));
  const edges = word === "expected" ? project.records.map((row) => [row[0], row[2]]) : project.imports;
  for (const [entry, chunk] of project.entries) {
    if (project.modules[entry][1] === 0) continue;
    const ours = lineOf(lines, word, entry);
    const theirs = (await orderOf(files, rootOf(entry, chunk))).join(" ");
    if (ours !== theirs) {
      console.log(`DIFFERENCE\n${word} ${entry}: the program says ${ours}, the engine says ${theirs}\n\n${listing(project)}`);
      process.exitCode = 1;
      return false;
    }
    tally[word] += 1;
    tally.cycles += hasCycle(edges) ? 1 : 0;
    tally.selves += edges.some(([a, b]) => a === b) ? 1 : 0;
    tally.ties += word === "actual" && hasTie(project) ? 1 : 0;
    tally.modules += theirs === "" ? 0 : theirs.split(" ").length;
  }
  return true;
}

const compareModules = (project) => compare(project, "expected", moduleFiles(project), (entry) => `m${entry}.mjs`);
const compareChunks = (project) => compare(project, "actual", chunkFiles(project), (_, chunk) => `c${chunk}.mjs`);

function differs(what, ours, theirs, project) {
  console.log(`DIFFERENCE\n${what}: the program says ${ours}, the engine says ${theirs}\n\n${listing(project)}`);
  process.exitCode = 1;
  return false;
}

// Compares the steps of each entry's load with the whole analysis' plan, and in a plain project the sensitive ones with the expected sensitive order.
async function compareLoads(project) {
  const text = listing(project);
  const lines = linesOf(text);
  const plan = new Set((lines.find((line) => line[0] === "plan") ?? []).slice(1).map(Number));
  const sensitive = new Set(lines.filter((line) => line[0] === "ground").map((line) => Number(line[1])));
  const imports = project.records.filter((row) => row[1] < 2).map((row) => [row[0], row[2]]);
  const plain = isPlain(project);
  for (const [entry, chunk] of project.entries) {
    if (project.modules[entry][1] === 0) continue;
    const steps = await loadOf(project, plan, entry, chunk);
    const theirs = steps.map((step, place) => `${place} ${step}`).join("; ");
    const ours = printed(flags.tries, text, String(entry)).join("; ");
    if (ours !== theirs) return differs(`load of ${entry}`, ours, theirs, project);
    const kept = (modules) => modules.map(Number).filter((module) => sensitive.has(module)).join(" ");
    const expected = kept((lineOf(lines, "expected", entry) ?? "").split(" ").filter((word) => word !== ""));
    const runs = kept(steps.map((step) => step.split(" ")[0]));
    if (plain && runs !== expected) return differs(`sensitive modules of ${entry}`, expected, runs, project);
    const actual = kept((lineOf(lines, "actual", entry) ?? "").split(" ").filter((word) => word !== ""));
    tried.loads += 1;
    tried.places += steps.length;
    tried.planned += plan.size > 0 ? 1 : 0;
    tried.hosted += steps.some((step) => step.split(" ")[0] !== step.split(" ")[1]) ? 1 : 0;
    tried.rings += hasCycle(imports) ? 1 : 0;
    tried.plain += plain ? 1 : 0;
    tried.reordered += plain && actual !== expected ? 1 : 0;
  }
  return true;
}

async function allLoads(random) {
  const until = 2 * Number(flags.count);
  while (tried.loads < until) if (!(await compareLoads(randomLoads(random, random.coin(50))))) return false;
  console.log(`${tried.loads} loads with the whole analysis' plan, module and host of each step, are the engine's: ${tried.places} places,`);
  console.log(`${tried.planned} with a plan that isn't empty, ${tried.hosted} with a noted host, ${tried.rings} of projects with a ring of modules; ${tried.plain} of plain`);
  console.log(`projects, whose sensitive modules run in their expected order, ${tried.reordered} of them in another order without the plan\n`);
  return true;
}

async function all() {
  const random = new Random(flags.seed);
  for (const project of smallModules()) if (!(await compareModules(project))) return;
  console.log(`all ${tally.expected} graphs of three modules with at most two records each`);
  const until = { expected: tally.expected + Number(flags.count), actual: Number(flags.count) };
  while (tally.expected < until.expected) if (!(await compareModules(randomModules(random)))) return;
  while (tally.actual < until.actual) if (!(await compareChunks(randomChunks(random, !flags["no-ties"])))) return;
  console.log(`${tally.expected} expected orders and ${tally.actual} actual orders are the engine's (node ${process.version}, seed ${flags.seed}):`);
  console.log(`${tally.modules} places, ${tally.cycles} orders of graphs with a cycle, ${tally.selves} with a self import,`);
  console.log(`${tally.ties} of chunks with ties that are imported the higher first\n`);
  if (flags.tries !== undefined && !(await allLoads(random))) return;
  console.log("Outside the premises:\n\n| | records (module kind target) | expected 1 | the engine |\n|---|---|---|---|");
  for (const { name, project, files } of cases) {
    const ours = lineOf(linesOf(listing(project)), "expected", 1);
    const theirs = (await orderOf(files, "m1.mjs", true)).join(" ");
    const records = project.records.map((row) => row.join(" ")).join(", ");
    console.log(`| ${name} | ${records} | ${ours} | ${theirs} |`);
  }
}

await all();
await cleared();
