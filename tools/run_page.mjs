// Runs the page's module outside a browser, by the calls of the page itself, for tools/try-page: run_page.mjs MODULE
//
// Each line of standard input is the path of a configuration, that of a trace and a number of rounds, as JSON. Each line of
// standard output is what came of it: sums of the maps file and the report, or the fault's line and the lines of the errors, or
// what stopped it.
import { createHash } from "node:crypto";
import { readFileSync } from "node:fs";
import { createInterface } from "node:readline";
import { scheduled } from "../web/module.mjs";

function sum(bytes) {
  return createHash("sha256").update(bytes).digest("hex");
}

async function answer(module, { config, trace, rounds }) {
  try {
    const { fault, findings, maps, report } = await scheduled(module, readFileSync(config), readFileSync(trace), rounds);
    return fault === undefined ? { maps: sum(maps), report: sum(report) } : { fault, findings };
  } catch (error) {
    return { stopped: String(error) };
  }
}

const module = readFileSync(process.argv[2]);
for await (const line of createInterface({ input: process.stdin })) {
  process.stdout.write(`${JSON.stringify(await answer(module, JSON.parse(line)))}\n`);
}
