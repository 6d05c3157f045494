// Where ECMA-262's premises fail: the smallest listings, as an engine may meet them.
import { plainRow } from "./projects.mjs";

const file = (module, imports = "", body = `ran(${module});`) => [`m${module}.mjs`, `${imports}\n${body}\n`];
const imports = (...modules) => modules.map((module) => `import "./m${module}.mjs";`).join(" ");

function outside(name, records, files, change = () => {}) {
  const count = 1 + Math.max(1, ...records.flatMap((row) => [row[0], row[2] === "-" ? 0 : row[2]]));
  const modules = Array.from({ length: count }, () => plainRow(0));
  change(modules);
  const project = { modules, records, order: [0], members: [], imports: [], entries: [[1, 0]] };
  return { name, project, files: Object.fromEntries(files) };
}

// Module 0 is the runtime, module 1 the entry.
export const cases = [
  outside(
    "an external target runs too",
    [[1, 0, 2]],
    [file(1, imports(2)), file(2)],
    (modules) => (modules[2][0] = 0),
  ),
  outside("an external entry runs", [], [file(1)], (modules) => (modules[1][0] = 0)),
  outside(
    "a module that isn't included runs too",
    [[1, 0, 2], [2, 0, 3]],
    [file(1, imports(2)), file(2, imports(3)), file(3)],
    (modules) => (modules[2][1] = 0),
  ),
  outside("a required module runs when it is called for", [[1, 1, 2], [1, 0, 3]], [
    file(1, `import { createRequire } from "node:module"; ${imports(3)}`, `createRequire(import.meta.url)("./m2.cjs"); ran(1);`),
    ["m2.cjs", "ran(2);"],
    file(3),
  ]),
  outside("a dynamic import runs later", [[1, 2, 2]], [file(1, "", `import("./m2.mjs"); ran(1);`), file(2)]),
  outside("another kind of record isn't loaded", [[1, 3, 2]], [file(1, "", `new URL("./m2.mjs", import.meta.url); ran(1);`), file(2)]),
  outside("with a missing target nothing runs", [[1, 0, 2], [1, 0, "-"]], [
    file(1, `${imports(2)} import "./missing.mjs";`),
    file(2),
  ]),
  outside("a later module starts while one awaits", [[1, 0, 2], [1, 0, 4], [2, 0, 3]], [
    file(1, imports(2, 4)),
    file(2, imports(3)),
    file(3, "", "ran(3); await 0;"),
    file(4),
  ]),
  outside("a later module ends while one awaits (bodies noted at their ends)", [[1, 0, 2], [1, 0, 3]], [
    file(1, imports(2, 3)),
    file(2, "", "await 0; ran(2);"),
    file(3),
  ]),
  outside("after a throw nothing more runs", [[1, 0, 2], [1, 0, 3]], [
    file(1, imports(2, 3)),
    file(2, "", `ran(2); throw new Error("thrown");`),
    file(3),
  ]),
];
