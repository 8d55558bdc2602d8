"use strict";
// command.js PAGE WORDS..: the program whose module stands in a page, as a command: real files, both streams, and its
// own status. ./idc and tools/program take it where ./prove has built nothing and the page is of the sources here.
//
// The module can't start a thread, so the elements of a run are worked by one. Where the instance was ended, as no
// proved program is, the status is 134, or 139 where the stack was too small, as those of a native program.
const fs = require("fs"), path = require("path"), zlib = require("zlib");

const ENDED = { trap: 134, stack: 139 };
const [page, ...words] = process.argv.slice(2);

// The text of an element of the page, whose kind follows its id.
function within(bytes, id, kind) {
  const head = `<script id="${id}" type="${kind}">`, from = bytes.indexOf(head) + head.length;
  return bytes.toString("latin1", from, bytes.indexOf("</script>", from));
}

// The words as they came: node's own list has lost what is no UTF-8.
function given() {
  try {
    const all = fs.readFileSync("/proc/self/cmdline"), found = [];
    for (let from = 0, end; (end = all.indexOf(0, from)) >= 0; from = end + 1) found.push(all.subarray(from, end));
    return words.length ? found.slice(-words.length) : [];
  } catch (error) {
    return words;
  }
}

// What a call answers, or -errno; a stream that takes or has nothing yet is asked again a little later.
function answered(call) {
  for (;;) {
    try {
      return call();
    } catch (error) {
      if (error.code !== "EAGAIN") return error.errno < 0 ? error.errno : -5;
      Atomics.wait(new Int32Array(new SharedArrayBuffer(4)), 0, 0, 5);
    }
  }
}

const system = {
  open: (name) => answered(() => fs.openSync(Buffer.from(name), "r")),
  read: (descriptor, to) => answered(() => fs.readSync(descriptor, to, 0, to.length, null)),
  write: (descriptor, from) => answered(() => fs.writeSync(descriptor, from, 0, from.length)),
};

const core = fs.readFileSync(path.join(__dirname, "core.js"), "utf8");
const idc = new Function(core + "; return idc;")();
const packed = Buffer.from(within(fs.readFileSync(page), "wasm", "text/plain"), "base64");
const { status, err } = idc(new WebAssembly.Module(zlib.gunzipSync(packed)), given(), {}, system);
if (err.length) process.stderr.write(`idc: the module was ended: ${Buffer.from(err)}`);
process.exitCode = typeof status === "number" ? status : ENDED[status];
