// Checks what the binary of primes.wat answers. In this folder:
//
//     ../bin/wat < primes.wat > primes.wasm
//     nodejs primes.js primes.wasm
"use strict";

const assert = require("assert");
const fs = require("fs");

const bytes = fs.readFileSync(process.argv[2]);
assert(WebAssembly.validate(bytes), "the binary isn't valid");
const compiled = new WebAssembly.Module(bytes);

const isPrime = (n) => {
  if (n < 2) return false;
  for (let d = 2; d * d <= n; d++) if (n % d === 0) return false;
  return true;
};
const primesBelow = (n) => [...Array(n).keys()].filter(isPrime);

const visited = [];
const primes = new WebAssembly.Instance(compiled, { host: { visit: (p) => visited.push(p) } }).exports;
const memory = new Uint8Array(primes.memory.buffer);
const text = (at, length) => new TextDecoder().decode(memory.subarray(at, at + length));
const described = (n) => ((at) => text(at + 1, memory[at]))(primes.describe(n));

// custom sections, imports, exports
const custom = (name) => WebAssembly.Module.customSections(compiled, name);
assert.strictEqual(new TextDecoder().decode(custom("origin")[0]), "an example of the text format");
for (const name of ["producers", "metadata.code.branch_hint", "name"]) assert.strictEqual(custom(name).length, 1, name);
assert.deepStrictEqual(WebAssembly.Module.imports(compiled), [{ module: "host", name: "visit", kind: "function" }]);
assert.deepStrictEqual(
  WebAssembly.Module.exports(compiled).map((e) => e.name + ":" + e.kind),
  [
    "memory:memory", "operations:table", "too_small:tag", "limit:global", "sieve:function", "power:function", "is_prime:function", "next_prime:function", "largest_factor:function",
    "count_below:function", "visit_below:function", "apply:function", "describe:function", "greet:function",
  ],
);
assert.strictEqual(primes.memory.buffer.byteLength, 2 * 65536);
assert.strictEqual(primes.operations.length, 4);

// the start function marked numbers below 1000
assert.strictEqual(primes.limit.value, 1000);
assert.deepStrictEqual([...Array(1000).keys()].filter((n) => memory[1024 + n] === 0), primesBelow(1000));
for (const n of [0, 1, 2, 15, 16, 17, 100, 997, 998, 1000]) assert.strictEqual(primes.count_below(n), primesBelow(n).length, `count_below ${n}`);
assert.throws(() => primes.count_below(1001), WebAssembly.RuntimeError);

// each side of the limit
for (let n = 0; n < 3000; n++) assert.strictEqual(primes.is_prime(n), Number(isPrime(n)), `is_prime ${n}`);
for (const n of [4294967291, 4294967279, 2147483647, 3215031751, 3474749660383 % 4294967296, 25326001, 65537, 65536]) {
  assert.strictEqual(primes.is_prime(n | 0), Number(isPrime(n)), `is_prime ${n}`);
}
assert.strictEqual(primes.next_prime(0), 2);
assert.strictEqual(primes.next_prime(996), 997);
assert.strictEqual(primes.next_prime(997), 1009);
assert.strictEqual(primes.next_prime(4294967291 | 0), 0);
assert.strictEqual(primes.power(3n, 1000000n, 1000003n), BigInt([...Array(1000000)].reduce((x) => (x * 3) % 1000003, 1)));

// factors, the table, texts
for (let n = 2; n < 2000; n++) {
  const largest = Math.max(...primesBelow(n + 1).filter((p) => n % p === 0));
  assert.strictEqual(primes.largest_factor(n), largest, `largest_factor ${n}`);
}
assert.strictEqual(primes.largest_factor(4294967295 | 0), 65537);
assert.deepStrictEqual([0, 1, 2, 3].map((k) => primes.apply(k, 90)), [0, 97, 5, 24]);
assert.strictEqual(primes.operations.get(2)(91), 13);
assert.throws(() => primes.apply(4, 1), WebAssembly.RuntimeError);
assert.deepStrictEqual([1, 2, 3, 4, 1009, 1011].map(described), ["unit", "prime", "prime", "composite", "prime", "composite"]);
assert.throws(() => primes.describe(0), WebAssembly.RuntimeError);

primes.visit_below(50);
assert.deepStrictEqual(visited, primesBelow(50));

assert.strictEqual(primes.greet(), 14);
assert.strictEqual(text(64, 14), "primes \u2264 255");
assert.throws(() => primes.greet(), WebAssembly.RuntimeError);

// a limit of one's own; one that is too small is an exception
primes.sieve(200000);
assert.strictEqual(primes.limit.value, 65536);
assert.strictEqual(primes.count_below(65536), 6542);
assert.throws(() => primes.sieve(2), (e) => e instanceof WebAssembly.Exception && e.is(primes.too_small) && e.getArg(primes.too_small, 0) === 2);
assert.strictEqual(primes.limit.value, 65536);

console.log("primes: all checks passed");
