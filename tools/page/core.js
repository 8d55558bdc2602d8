"use strict";
// One call of the program: a fresh instance of its compiled module, so that no call leaves anything to the next.

// What the command `idc WORDS` answers, {status, out, err, pages}, where the folder has these files, {name: text or
// bytes}. The status is a number, or "stack" or "trap" where the instance was ended, and then `err` says by what.
// Where a `system` is given, its open(name), read(descriptor, to) and write(descriptor, bytes), each of which answers a
// number as the C library's would, or -errno, stand in place of the folder and of `out` and `err`. Words, and names for
// a system, may be bytes.
function idc(module, words, files, system) {
  const encoder = new TextEncoder();
  const bytesOf = (text) => (typeof text === "string" ? encoder.encode(text) : text);
  const args = ["idc", ...words].map(bytesOf);
  const opened = [], written = { 1: [], 2: [] };
  let memory, seen;
  // An address comes as a BigInt, whose low 32 bits are all of it (lower.py).
  const at = (address) => Number(BigInt.asUintN(32, address));
  const view = () => (seen && seen.buffer === memory.buffer ? seen : (seen = new Uint8Array(memory.buffer)));
  const bytes = (address, count) => view().subarray(at(address), at(address) + Number(count));
  class Exit {
    constructor(status) { this.status = status; }
  }
  const folder = {
    open(name) {
      const path = new TextDecoder().decode(name);
      if (!Object.hasOwn(files, path)) return -2;
      opened.push({ bytes: bytesOf(files[path]), at: 0 });
      return 2 + opened.length;
    },
    read(descriptor, to) {
      const file = opened[descriptor - 3];
      if (!file) return 0;
      const part = file.bytes.subarray(file.at, file.at + to.length);
      to.set(part);
      file.at += part.length;
      return part.length;
    },
    write(descriptor, from) {
      if (!written[descriptor]) return -9;
      written[descriptor].push(from.slice());
      return from.length;
    },
  };
  const given = system || folder;
  const host = {
    arg(number, to, room) {
      if (number >= args.length) return -1;
      const word = args[number], count = Math.min(word.length, Number(room));
      bytes(to, count).set(word.subarray(0, count));
      return word.length > count ? -2 : word.length;
    },
    open(path) {
      const from = at(path);
      return given.open(view().slice(from, view().indexOf(0, from)));
    },
    read: (descriptor, to, most) => given.read(descriptor, bytes(to, most)),
    write: (descriptor, from, count) => given.write(descriptor, bytes(from, count)),
    exit(status) { throw new Exit(status); },
  };
  const instance = new WebAssembly.Instance(module, { host });
  memory = instance.exports.memory;
  let status;
  try {
    status = instance.exports.main(0, 0n);
  } catch (end) {
    status = end instanceof Exit ? end.status : end instanceof RangeError ? "stack" : "trap";
    if (!(end instanceof Exit)) written[2].push(encoder.encode(String(end) + "\n"));
  }
  const joined = (parts) => {
    const all = new Uint8Array(parts.reduce((sum, part) => sum + part.length, 0));
    let end = 0;
    for (const part of parts) {
      all.set(part, end);
      end += part.length;
    }
    return all;
  };
  return { status, out: joined(written[1]), err: joined(written[2]), pages: memory.buffer.byteLength / 65536 };
}
