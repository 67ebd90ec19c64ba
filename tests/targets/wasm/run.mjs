// node run.mjs CGX.wasm DIGEST.wasm CASES: runs the digest program, a module of its own in the memory of the library's, on
// the library's file as it is built, and writes the answers to standard output. WebAssembly refuses an import whose type is
// not the export's, so the header is tried, too.
import { readFileSync, writeSync } from "node:fs";
const [library, program, cases] = process.argv.slice(2).map((name) => readFileSync(name));

const { instance } = await WebAssembly.instantiate(library, {});
const { memory } = instance.exports;
memory.grow(64); // the program's data begins at 1 MiB
let at = 0;
const answers = [];
const env = {
    ...instance.exports,
    port_read(to, count) {
        const piece = cases.subarray(at, at + count);
        new Uint8Array(memory.buffer).set(piece, to);
        at += piece.length;
        return piece.length;
    },
    port_write(from, count) {
        answers.push(Buffer.from(new Uint8Array(memory.buffer, from, count)));
    },
};
const status = (await WebAssembly.instantiate(program, { env })).instance.exports.digest();
writeSync(1, Buffer.concat(answers));
process.exitCode = status;
