// What `cromhost check` reads, against what node compiles as strict code:
// - each script that is made by the grammar below, both read;
// - of the same scripts with a few words changed, node compiles each that cromhost reads.
// The second half is one way only: node also reads what this project leaves out.
// Usage: node checks/against_node.js PROGRAM
'use strict';
const { spawnSync } = require('node:child_process');
const { createHash } = require('node:crypto');
const { mkdtempSync, rmSync, writeFileSync } = require('node:fs');
const { tmpdir } = require('node:os');
const { join, resolve } = require('node:path');
const { Script } = require('node:vm');

const PROGRAM = resolve(process.argv[2]);
const MADE = 500;
const CHANGED = 300;
const DEPTH = 5;

// Numbers below n, the same ones at each run.
let drawn = 0;
function below(n) {
    drawn += 1;
    return createHash('sha256').update(String(drawn)).digest().readUInt32LE(0) % n;
}
const any = (list) => list[below(list.length)];
const maybe = (make) => (below(2) ? make() : []);
function listed(most, make) {
    const words = [];
    for (let i = below(most + 1); i > 0; i -= 1) {
        words.push(...(words.length ? [','] : []), ...make());
    }
    return words;
}

// A script is a list of words. Each maker takes how deep its words may nest.
const NAMES = ['a', 'b', 'c', 'of', 'get', 'set', 'x1', '$', '_'];
const KEYS = ['a', 'b', '1', '"k"', 'if', 'get', 'set'];
const ASSIGNS = ['=', '+=', '-=', '*=', '/=', '%=', '<<=', '>>=', '>>>=', '&=', '^=', '|='];
const BINARY = ['*', '/', '%', '+', '-', '<<', '>>', '>>>', '<', '>', '<=', '>=', 'instanceof', '==', '!=', '===', '!==', '&', '^', '|', '&&', '||'];
const UNARY = ['delete', 'void', 'typeof', '+', '-', '~', '!'];
const LITERALS = ['0', '17', '0x1f', '"t"', "'s'", 'this', 'true', 'false', 'null'];

const expression = (d, noIn) => (below(6) ? assignment(d, noIn) : [...assignment(d - 1, noIn), ',', ...assignment(d - 1, noIn)]);
function assignment(d, noIn) {
    if (d <= 0) return primary(0);
    switch (below(6)) {
        case 0: return [...target(d - 1), any(ASSIGNS), ...assignment(d - 1, noIn)];
        // In the head of a `for`, `in` is no operator between `?` and `:` either (this project's own).
        case 1: return [...binary(d - 1, noIn), '?', ...assignment(d - 1, noIn), ':', ...assignment(d - 1, noIn)];
        default: return binary(d, noIn);
    }
}
function binary(d, noIn) {
    if (d <= 0 || below(2)) return unary(d);
    return [...binary(d - 1, noIn), any(noIn ? BINARY : [...BINARY, 'in']), ...binary(d - 1, noIn)];
}
function unary(d) {
    if (d <= 0) return primary(0);
    switch (below(7)) {
        case 0: {
            const operator = any(UNARY);
            return operator === 'delete' ? [operator, ...member(d - 1)] : [operator, ...unary(d - 1)];
        }
        case 1: return [any(['++', '--']), ...target(d - 1)];
        case 2: return [...target(d - 1), any(['++', '--'])];
        case 3: return ['new', ...maybe(() => ['new']), ...constructor(d - 1)];
        default: return left(d);
    }
}
const member = (d) => (below(2) ? [...left(d - 1), '.', any([...NAMES, 'if', 'delete'])] : [...left(d - 1), '[', ...expression(d - 1), ']']);
const target = (d) => (d <= 0 || below(2) ? [any(NAMES)] : member(d));
function left(d) {
    if (d <= 0) return primary(0);
    switch (below(5)) {
        case 0: return member(d);
        case 1: return [...left(d - 1), '(', ...listed(3, () => assignment(d - 1)), ')'];
        case 2: return ['new', ...constructor(d - 1), '(', ...listed(2, () => assignment(d - 1)), ')'];
        default: return primary(d);
    }
}
const constructor = (d) => (d <= 0 || below(2) ? primary(d) : [...constructor(d - 1), '.', any(NAMES)]);
function primary(d) {
    if (d <= 0 || below(2)) return [any(below(2) ? NAMES : LITERALS)];
    switch (below(4)) {
        case 0: return ['(', ...expression(d - 1), ')'];
        case 1: return ['[', ...listed(3, () => assignment(d - 1)), ']'];
        case 2: return object(d);
        default: return called(d, maybe(() => [any(NAMES)]));
    }
}
function object(d) {
    const words = KEYS.slice(0, below(KEYS.length)).flatMap((key) => [key, ':', ...assignment(d - 1), ',']);
    return ['{', ...(below(2) ? words : words.slice(0, -1)), '}'];
}
function called(d, name) {
    const first = below(NAMES.length - 2);
    const parameters = NAMES.slice(first, first + below(3)).flatMap((parameter) => [parameter, ',']).slice(0, -1);
    return ['function', ...name, '(', ...parameters, ')', '{', ...sources(d - 1, { called: true }), '}'];
}

// The end of a statement, which is a `;` or is inserted (ECMA-262 5.1, 7.9.1) where the next word lets it.
const END = 'END';
function ended(words) {
    return words.map((word, at) => {
        const next = words[at + 1];
        if (word !== END || !below(2)) return word === END ? ';' : word;
        if (next === undefined || next === '}') return any(['', '\n']);
        return ['(', '[', '+', '-'].includes(next) ? ';' : '\n';
    });
}
function sources(d, inside) {
    const words = [];
    for (let i = below(4); i > 0; i -= 1) {
        words.push(...(below(6) ? statement(d, inside) : called(d - 1, [any(NAMES)])));
    }
    return words;
}
const statements = (d, inside) => [...maybe(() => statement(d, inside)), ...maybe(() => statement(d, inside))];
const block = (d, inside) => ['{', ...statements(d - 1, inside), '}'];
const variables = (d, noIn) => [any(NAMES), ...maybe(() => ['=', ...assignment(d - 1, noIn)]), ...maybe(() => [',', any(NAMES), '=', ...assignment(d - 1, noIn)])];
const test = (d) => ['(', ...expression(d - 1), ')'];
function statement(d, inside) {
    if (d <= 0) return [';'];
    const turning = { ...inside, turning: true, leaving: true };
    switch (below(17)) {
        case 0: return block(d, inside);
        case 1: return ['var', ...variables(d), END];
        case 2: return ['if', ...test(d), ...statement(d - 1, inside), ...maybe(() => ['else', ...statement(d - 1, inside)])];
        case 3: return ['do', ...statement(d - 1, turning), 'while', ...test(d), END];
        case 4: return ['while', ...test(d), ...statement(d - 1, turning)];
        case 5: return ['for', '(', ...loopHead(d), ')', ...statement(d - 1, turning)];
        case 6: return ['for', '(', ...maybe(() => ['var']), any(NAMES), 'in', ...expression(d - 1), ')', ...statement(d - 1, turning)];
        case 7: return inside.turning ? ['continue', END] : [';'];
        case 8: return inside.leaving ? ['break', END] : [';'];
        case 9: return inside.called ? ['return', ...maybe(() => expression(d - 1)), END] : [';'];
        case 10: return ['throw', ...expression(d - 1), END];
        case 11: return ['switch', ...test(d), '{', ...cases(d, { ...inside, leaving: true }), '}'];
        case 12: return ['try', ...block(d, inside), ...handlers(d, inside)];
        default: return expressionStatement(d);
    }
}
const loopHead = (d) => [
    ...maybe(() => (below(2) ? expression(d - 1, true) : ['var', ...variables(d, true)])), ';',
    ...maybe(() => expression(d - 1)), ';', ...maybe(() => expression(d - 1)),
];
const cases = (d, inside) => [
    ...maybe(() => ['case', ...expression(d - 1), ':', ...statements(d - 1, inside)]),
    ...maybe(() => ['default', ':', ...statements(d - 1, inside)]),
    ...maybe(() => ['case', ...expression(d - 1), ':', ...statements(d - 1, inside)]),
];
function handlers(d, inside) {
    const last = ['finally', ...block(d, inside)];
    return below(2) ? last : ['catch', '(', any(NAMES), ')', ...block(d, inside), ...maybe(() => last)];
}
function expressionStatement(d) {
    const words = expression(d);
    return ['{', 'function'].includes(words[0]) ? ['(', ...words, ')', END] : [...words, END];
}

// A script with a few words taken out, put in, exchanged, or on a new line.
const WORDS = [...NAMES, ...LITERALS, ...BINARY, ...UNARY, ...ASSIGNS, ...'(){}[];,.?:'.split(''), '++', '--', '\n', 'in', 'new', 'eval', 'var',
    'function', 'if', 'else', 'for', 'while', 'do', 'return', 'break', 'continue', 'throw', 'try', 'catch', 'finally', 'switch', 'case', 'default',
    'let', 'yield', 'class', 'with', 'debugger', '1.5', '09', '@', '=>', '...'];
function changed(words) {
    const out = words.slice();
    for (let i = 1 + below(2); i > 0; i -= 1) {
        const at = below(out.length + 1);
        const one = at < out.length ? 1 : 0;
        out.splice(at, ...any([[one], [0, any(WORDS)], [one, any(WORDS)], [0, '\n']]));
    }
    return out;
}

function compiles(script) {
    try {
        return Boolean(new Script(`'use strict';\n${script}`));
    } catch (error) {
        if (error instanceof SyntaxError) return false;
        throw error;
    }
}
const folder = mkdtempSync(join(tmpdir(), 'against-node-'));
// The number of the first script that cromhost refuses; null where it reads all.
function refused(scripts) {
    writeFileSync(join(folder, 'page.html'), `<html>${scripts.map((script) => `<script>${script}</script>`).join('')}</html>`);
    const ran = spawnSync(PROGRAM, ['check', 'page.html'], { cwd: folder, encoding: 'utf8' });
    if (ran.status === 0 && ran.stdout === `ok scripts ${scripts.length}\n`) return null;
    const line = /^cromhost: script (\d+) rule [\d.]+ at \d+\n$/.exec(ran.stderr);
    if (ran.status === 3 && line) return Number(line[1]);
    throw new Error(`status ${ran.status}: ${ran.stdout}${ran.stderr}`);
}

const failures = [];
const made = Array.from({ length: MADE }, () => ended(sources(DEPTH, {})));
const scripts = made.map((words) => words.join(' '));
failures.push(...scripts.filter((script) => !compiles(script)).map((script) => `made, and node refuses it: ${script}`));
const first = refused(scripts);
if (first !== null) failures.push(`made, and cromhost refuses it: ${scripts[first]}`);
let read = 0;
for (let i = 0; i < CHANGED; i += 1) {
    const script = changed(any(made)).join(' ');
    if (refused([script]) !== null) continue;
    read += 1;
    if (!compiles(script)) failures.push(`cromhost reads it, and node refuses it: ${script}`);
}
rmSync(folder, { recursive: true });
for (const failure of failures.slice(0, 5)) console.log(`against node: ${failure}`);
console.log(`against node: ${MADE} scripts made, ${CHANGED} changed, of which ${read} are read; ${failures.length} differences`);
process.exit(failures.length ? 1 : 0);
