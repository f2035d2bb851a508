// Carries out a command with the module under node: node web/node.js MODULE WORD .. [--files FILE ..]
'use strict';

const { readFileSync } = require('node:fs');
const { caller } = require('./call.js');

const [path, ...rest] = process.argv.slice(2);
const at = rest.includes('--files') ? rest.indexOf('--files') : rest.length;
const call = caller(new WebAssembly.Instance(new WebAssembly.Module(readFileSync(path)), {}));
const from = performance.now();
const answer = call(rest.slice(0, at), rest.slice(at + 1).map((name) => [name, readFileSync(name)]));
const took = performance.now() - from;
process.stdout.write(answer.out);
process.stderr.write(answer.err);
if (process.env.NSPK_TIME) process.stderr.write(`${took.toFixed(0)} ms\n`);
process.exitCode = answer.status;
