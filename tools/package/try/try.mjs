// try.mjs PACKAGE CALLS ANSWERS: makes each call of a file by idc.mjs (.ci/packages has the format).
import { readFileSync, writeFileSync } from "node:fs";

const [package_, calls, answers] = process.argv.slice(2), { call } = await import(package_ + "/idc.mjs");
const all = readFileSync(calls), parts = [];
let at = 0;
function next() {
  const sign = all.indexOf(":", at), length = Number(all.toString("latin1", at, sign));
  at = sign + 2 + length;
  return all.subarray(sign + 1, at - 1);
}
const count = () => Number(next().toString());
const put = (bytes) => parts.push(Buffer.from(bytes.length + ":"), bytes, Buffer.from(","));
while (at < all.length) {
  const words = Array.from({ length: count() }, next), files = {};
  for (let left = count(); left; left--) files[next().toString()] = next();
  const { status, out, err } = call(words, files);
  for (const it of [String(status), out, err]) put(Buffer.from(it));
}
writeFileSync(answers, Buffer.concat(parts));
