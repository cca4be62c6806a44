// Runs a WebAssembly program whose main takes nothing: node wasm.mjs PROGRAM
import { readFileSync, writeSync } from "node:fs";

const module = new WebAssembly.Module(readFileSync(process.argv[2]));
const env = {
    put_text(words) {
        const bytes = new Uint8Array(instance.exports.memory.buffer, words);
        writeSync(1, bytes.subarray(0, bytes.indexOf(0)));
    },
};
const instance = new WebAssembly.Instance(module, { env });
process.exit(instance.exports.main());
