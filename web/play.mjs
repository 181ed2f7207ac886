// Plays scripts with the module that pages use, like `tpmsim run`.
//
//   node play.mjs MODULE run SCRIPT      prints what `tpmsim run SCRIPT` prints
//   node play.mjs MODULE trace SCRIPT    prints what `tpmsim run --trace SCRIPT` prints
//   node play.mjs MODULE check SCRIPT    prints what `tpmsim check SCRIPT` prints
//   node play.mjs MODULE compare FOLDER..
//       plays each NAME.tpm of these folders that has a NAME.out next to it, and compares the
//       output with NAME.out, and with NAME.trace if there is one
import { existsSync, readFileSync, readdirSync } from 'node:fs';
import { join } from 'node:path';
import { fileURLToPath } from 'node:url';

const KINDS = ['nothing', 'hex', 'words', 'locality', 'wait', 'entropy', 'power'];
const FAULTS = ['', 'BadName', 'BadField', 'Missing', 'Range', 'TooLong'];

/** The buffers in the module's memory, by name, with their sizes. */
const LENT = {
    holder: 8, random: 256, response: 4096, answered: 32, trace: 64, waited: 4, report: 256, written: 32768, wanted: 64, read: 32,
    spelled: 65536, form: 256, place: 4, taken: 8, text: 65536, entry: 9216,
};

/** @param {number} number */
const rounded = (number) => (number + 15) & ~15;

/** @param {Uint8Array} bytes */
export const hex = (bytes) => Buffer.from(bytes).toString('hex');

export class Module {
    /** @param {Uint8Array} bytes the contents of tpmsim.wasm */
    constructor(bytes) {
        const compiled = new WebAssembly.Module(bytes);
        const imports = WebAssembly.Module.imports(compiled);
        if (imports.length !== 0) throw new Error(`the module imports ${JSON.stringify(imports)}`);
        this.calls = /** @type {any} */ (new WebAssembly.Instance(compiled, {}).exports);
        this.at = /** @type {Record<string, number>} */ ({});
        let end = rounded(Number(this.calls.__heap_base.value));
        for (const [name, size] of Object.entries({ ...LENT, device: Number(this.calls.device_size()) })) {
            this.at[name] = end;
            end = rounded(end + size);
        }
        this.end = end;
        this.grow(end);
    }

    /** @param {number} end the minimum size of the memory afterwards, in bytes */
    grow(end) {
        const pages = Math.ceil((end - this.calls.memory.buffer.byteLength) / 65536);
        if (pages > 0) this.calls.memory.grow(pages);
        this.bytes = new Uint8Array(this.calls.memory.buffer);
        this.view = new DataView(this.calls.memory.buffer);
    }

    /** Returns a buffer's address, as the calls take it. @param {string} name */
    to(name) {
        return BigInt(this.at[name]);
    }

    /** @param {string} name @param {number} size the number of bytes to return, from the first one on */
    front(name, size) {
        return this.bytes.slice(this.at[name], this.at[name] + size);
    }

    /** @param {string} name @param {number} offset */
    size(name, offset) {
        return Number(this.view.getBigUint64(this.at[name] + offset, true));
    }

    /** Copies bytes into memory for one call, after the other buffers. @param {Uint8Array} bytes */
    lend(bytes) {
        this.grow(this.end + bytes.length);
        this.bytes.set(bytes, this.end);
        return /** @type {[bigint, bigint]} */ ([BigInt(this.end), BigInt(bytes.length)]);
    }
}

/** Plays a script from its first line on. */
export class Player {
    /** @param {Module} module @param {boolean} traced */
    constructor(module, traced) {
        this.module = module;
        this.traced = traced;
        this.locality = 0;
        this.entropy = new Uint8Array(256);
        this.printed = /** @type {string[]} */ ([]);
        this.commands = /** @type {Uint8Array[]} */ ([]);
        module.view.setUint32(module.at.waited, 0, true);
        module.bytes.set(Uint8Array.from({ length: 256 }, (_, place) => place), module.at.random);
        module.calls.device_manufacture(module.to('holder'), module.to('device'), module.to('random'));
    }

    /** Executes a line. @param {Uint8Array} line @returns {string} its fault, empty for a good line */
    line(line) {
        const { calls, at } = this.module;
        const { module } = this;
        const [text, size] = module.lend(line);
        const fault = calls.script_line(text, size, ...['waited', 'written', 'wanted', 'read'].map((name) => module.to(name)));
        if (fault !== 0) return this.fault(fault);
        const number = module.view.getUint32(at.read + 24, true);
        const bytes = module.front('written', module.size('read', 0));
        const kind = KINDS[module.bytes[at.read + 28]];
        if (kind === 'hex' || kind === 'words') this.execute(bytes, number);
        if (kind === 'locality') this.locality = number;
        if (kind === 'entropy') this.entropy = this.entropy.map((_, place) => bytes[place % bytes.length]);
        if (kind === 'power') this.cyclePower();
        return '';
    }

    /** @param {number} fault */
    fault(fault) {
        const column = this.module.size('read', 8);
        const wanted = Buffer.from(this.module.front('wanted', this.module.size('read', 16))).toString();
        return `${FAULTS[fault]}${column === 0 ? '' : ` ${column}`}: ${wanted}`;
    }

    /** @param {Uint8Array} command @param {number} elapsed */
    execute(command, elapsed) {
        const { module } = this;
        module.bytes.set(this.entropy, module.at.random);
        const [buffer, size] = module.lend(command);
        const told = module.calls.device_execute(
            module.to('holder'), buffer, size, this.locality, elapsed | 0, module.to('random'),
            module.to('response'), module.to('answered'), module.to('trace'),
        );
        if (told !== 0) throw new Error(`device_execute answers ${told}`);
        if (this.traced) this.printed.push(`${Buffer.from(module.front('trace', module.size('answered', 16)))}\n`);
        this.printed.push(`${hex(module.front('response', module.size('answered', 0)))}\n`);
        this.commands.push(command);
    }

    cyclePower() {
        const told = this.module.calls.device_cycle_power(this.module.to('holder'));
        if (told !== 0) throw new Error(`device_cycle_power answers ${told}`);
        if (this.traced) this.printed.push('power\n');
    }
}

/** Reads a script and prints the fault of each bad line. @param {Module} module @param {string} file */
function check(module, file) {
    module.view.setUint32(module.at.waited, 0, true);
    let number = 0;
    for (const line of linesOf(readFileSync(file))) {
        number += 1;
        const places = ['waited', 'written', 'report'].map((name) => module.to(name));
        const size = module.calls.script_report(number, ...module.lend(line), ...places);
        process.stdout.write(module.front('report', Number(size)));
    }
}

/** Yields the lines of a text, each without its newline. @param {Uint8Array} text */
export function* linesOf(text) {
    let start = 0;
    while (start < text.length) {
        const found = text.indexOf(10, start);
        const end = found < 0 ? text.length : found;
        yield text.subarray(start, end);
        start = end + 1;
    }
}

/** Plays a script up to its first bad line. @param {Module} module @param {string} file @param {boolean} traced */
export function play(module, file, traced) {
    const player = new Player(module, traced);
    let number = 0;
    let fault = '';
    for (const line of linesOf(readFileSync(file))) {
        number += 1;
        fault = player.line(line);
        if (fault !== '') break;
    }
    return { printed: player.printed.join(''), number: fault === '' ? 0 : number, fault, commands: player.commands };
}

/** Yields the scripts in folders and below them. @param {string[]} folders @returns {Generator<string>} */
export function* scriptsIn(folders) {
    for (const folder of folders) {
        for (const entry of readdirSync(folder, { withFileTypes: true }).sort((a, b) => (a.name < b.name ? -1 : 1))) {
            const path = join(folder, entry.name);
            if (entry.isDirectory()) yield* scriptsIn([path]);
            else if (path.endsWith('.tpm')) yield path;
        }
    }
}

/**
 * Compares a script with its expected files. Returns the differences and the counts. @param {Module} module
 * @param {string} file
 */
function compare(module, file) {
    const beside = (/** @type {string} */ end) => file.replace(/tpm$/, end);
    const read = (/** @type {string} */ end) => (existsSync(beside(end)) ? readFileSync(beside(end), 'latin1') : '');
    const played = play(module, file, false);
    const wrong = [];
    if (played.printed !== read('out')) wrong.push(`${file}: other answers`);
    if (existsSync(beside('trace')) && play(module, file, true).printed !== read('trace')) wrong.push(`${file}: other traces`);
    const stored = read('err');
    const said = played.fault === '' ? '' : `tpmsim: script line ${played.number}\n`;
    if (stored !== said) wrong.push(`${file}: line ${played.number}: ${played.fault}`);
    return { wrong, commands: played.commands };
}

/** @param {Module} module @param {string[]} folders */
function compareAll(module, folders) {
    let scripts = 0;
    let commands = 0;
    let traces = 0;
    const wrong = [];
    for (const file of scriptsIn(folders)) {
        if (!existsSync(file.replace(/tpm$/, 'out'))) continue;
        const compared = compare(module, file);
        scripts += 1;
        commands += compared.commands.length;
        traces += existsSync(file.replace(/tpm$/, 'trace')) ? 1 : 0;
        wrong.push(...compared.wrong);
    }
    console.log(`${scripts} scripts, ${traces} with traces, ${commands} commands`);
    for (const line of wrong) console.log(line);
    return wrong.length === 0;
}

function main() {
    const [path, task, ...files] = process.argv.slice(2);
    const module = new Module(readFileSync(path));
    if (task === 'compare') {
        process.exitCode = compareAll(module, files) ? 0 : 1;
        return;
    }
    if (task === 'check') {
        check(module, files[0]);
        return;
    }
    const played = play(module, files[0], task === 'trace');
    process.stdout.write(played.printed);
    if (played.fault === '') return;
    console.error(`line ${played.number}: ${played.fault}`);
    process.exitCode = 1;
}

if (process.argv[1] === fileURLToPath(import.meta.url)) main();
