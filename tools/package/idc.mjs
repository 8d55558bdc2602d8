// idc as calls: the program in docs/play/index.html, whose module stands beside this file, in node and like hosts.
// A call is one run of the program, and leaves nothing to the next.
//
//   import { run, call } from "./idc.mjs";
//   run("def main(n: int): int = n * n;", ["n=5"])          // { status: 0, out: "answer 25\n", err: "" }
//   call(["graph", "a.id"], { "a.id": "def main(): int = 1;" })
//
// Texts are strings or bytes. The status is the program's; where its instance was ended, as that of no proved program
// is, it is 134, or 139 where the stack was too small.
import { readFileSync } from "node:fs";

@@CORE@@

const ENDED = { trap: 134, stack: 139 };
const module = new WebAssembly.Module(readFileSync(new URL("idc.wasm", import.meta.url)));

// What the module is made of.
export const of = @@OF@@;

// What `idc WORDS` answers where these files, {name: text}, are all that there is: {status, out, err}.
export function call(words, files = {}) {
  const { status, out, err } = idc(module, words, files), decoder = new TextDecoder();
  return { status: ENDED[status] || status, out: decoder.decode(out), err: decoder.decode(err) };
}

// What `idc run text.id WORDS` answers, where the text stands in text.id.
export function run(text, words = []) {
  return call(["run", "text.id", ...words], { "text.id": text });
}
