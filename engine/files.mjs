// Writes ES modules as files into a fresh folder, imports one, and says in which order they ran.
import { mkdir, mkdtemp, rm, writeFile } from "node:fs/promises";
import { tmpdir } from "node:os";
import { join } from "node:path";
import { pathToFileURL } from "node:url";

const top = await mkdtemp(join(tmpdir(), "engine-"));
export const cleared = () => rm(top, { recursive: true });

let folders = 0;

// The order in which the files of `sources` (name to text) ran when `root` was imported; a file says so by `ran(number)`, or with its host by
// `ran(number, host)`. `begins(number)` says whether it is the first time.
// A failure to link or to run ends the list with its code. `later`: what runs soon afterwards counts too.
export async function orderOf(sources, root, later = false) {
  const folder = join(top, String(folders++));
  await mkdir(folder);
  for (const [name, text] of Object.entries(sources)) await writeFile(join(folder, name), text);
  const order = [];
  const begun = new Set();
  globalThis.ran = (number, host) => order.push(host === undefined ? number : `${number} ${host}`);
  globalThis.begins = (number) => !begun.has(number) && begun.add(number) && true;
  globalThis.ranOnce = (number) => order.includes(number) || order.push(number);
  try {
    await import(pathToFileURL(join(folder, root)).href);
    if (later) await new Promise((done) => setTimeout(done, 20));
  } catch (error) {
    order.push(error.code ?? error.message);
  }
  await rm(folder, { recursive: true });
  return order;
}

export const importsOf = (names) => names.map((name) => `import "./${name}";\n`).join("");

// A file for each module: its records as imports, in record order, then its body.
export function moduleFiles(project) {
  const file = (_, module) => {
    const targets = project.records.filter((row) => row[0] === module).map((row) => `m${row[2]}.mjs`);
    return [`m${module}.mjs`, `${importsOf(targets)}ran(${module});\n`];
  };
  return Object.fromEntries(project.modules.map(file));
}

// A file for each chunk: its imports in load order (the sort is stable: ties stay as the import rows stand), then the bodies of its included members, each run once.
export function chunkFiles(project) {
  const { order, imports, members, modules } = project;
  const file = (_, chunk) => {
    const imported = imports.filter((row) => row[0] === chunk).map((row) => row[1]);
    imported.sort((a, b) => order[a] - order[b]);
    const bodies = members.filter((row) => row[0] === chunk && modules[row[1]][1] === 1);
    const text = importsOf(imported.map((other) => `c${other}.mjs`)) + bodies.map((row) => `ranOnce(${row[1]});\n`).join("");
    return [`c${chunk}.mjs`, text];
  };
  return Object.fromEntries(order.map(file));
}
