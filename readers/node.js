// Reads the literals on standard input, a JSON array, by JSON.parse or by vm, as its word says, and
// prints each as the numbers of its characters.
const vm = require("vm");
const read = process.argv[2] === "vm" ? (it) => vm.runInNewContext(`const text = ${it}; text`) : JSON.parse;
for (const literal of JSON.parse(require("fs").readFileSync(0, "utf8"))) {
  console.log(JSON.stringify(Array.from(read(literal), (it) => it.codePointAt(0))));
}
