// Prints what the module returns for commands and codes in words, for module_words.sh.
//
//   node module_words.mjs MODULE bent FOLDER..   prints a script of altered lines from the scripts in these folders
//   node module_words.mjs MODULE lines           prints what `tpmsim lines` prints
//   node module_words.mjs MODULE codes CODE..    prints what `tpmsim code` prints for each code in hex
//   `node module_words.mjs MODULE spelled FOLDER..`
//       writes the commands of these scripts as lines, and assembles the lines again
import { readFileSync } from 'node:fs';
import { Module, hex, linesOf, play, scriptsIn } from '../../web/play.mjs';

const PLACES = ['', 'handle', 'parameter', 'session'];

/** Returns a line altered in one of six ways, or unchanged, depending on its number. @param {string} line @param {number} number */
function bent(line, number) {
    const words = line.split(' ');
    const place = number % Math.max(words.length, 1);
    const ways = [
        () => line.slice(0, -1),
        () => words.toSpliced(place, 1).join(' '),
        () => words.toSpliced(place, 0, '4294967296').join(' '),
        () => `${line} `,
        () => line.replace(/[0-9a-f](?=[^0-9a-f]*$)/, 'g'),
        () => `wait ${4294967295 - number}`,
        () => line,
    ];
    return ways[number % ways.length]();
}

/** @param {string[]} folders */
function printBent(folders) {
    let number = 0;
    for (const file of scriptsIn(folders)) {
        for (const line of linesOf(readFileSync(file))) {
            if (line.length === 0 || line[0] === 35 || line.length > 500 || number > 6000) continue;
            number += 1;
            console.log(bent(Buffer.from(line).toString('latin1'), number));
        }
    }
}

/** @param {Module} module @param {string} call @param {number} number */
function wordsOf(module, call, number) {
    const size = Number(module.calls[call](number, module.to('form')));
    return Buffer.from(module.front('form', size)).toString();
}

/** @param {Module} module */
function printLines(module) {
    for (let number = 0; number < 0x1000; number += 1) {
        const form = wordsOf(module, 'command_form', number);
        if (form === '') continue;
        const name = Buffer.from(form.split(' ')[0]);
        const found = module.calls.command_number(...module.lend(name));
        if (found !== number) console.log(`${name}: ${found}`);
        console.log(form);
        console.log(`    ${name} ${wordsOf(module, 'command_example', number)}`.trimEnd());
    }
}

/** @param {Module} module @param {string[]} codes */
function printCodes(module, codes) {
    for (const code of codes) {
        const size = Number(module.calls.code_meaning(Number.parseInt(code, 16) | 0, module.to('form'), module.to('place')));
        const name = Buffer.from(module.front('form', size)).toString();
        const place = module.view.getUint32(module.at.place, true);
        if (size === 0) console.log('no such code');
        else console.log(place === 0 ? name : `${name}, ${PLACES[place >> 8]} ${place & 255}`);
    }
}

/** Returns the line for a command's buffer, or an empty line if the buffer has no line. @param
 * {Module} module @param {Uint8Array} command */
function spelled(module, command) {
    const buffer = module.lend(command);
    const size = Number(module.calls.line_spell(...buffer, module.to('spelled'), 65536n));
    return module.front('spelled', size);
}

/** @param {Module} module @param {Uint8Array} line */
function assembled(module, line) {
    const words = module.lend(line);
    const fault = module.calls.line_assemble(...words, ...['written', 'wanted', 'read'].map((name) => module.to(name)));
    return fault === 0 ? hex(module.front('written', module.size('read', 0))) : `fault ${fault}`;
}

/** @param {Module} module @param {string[]} folders */
function printSpelled(module, folders) {
    let words = 0;
    let without = 0;
    const seen = new Set();
    for (const file of scriptsIn(folders)) {
        for (const command of play(module, file, false).commands) {
            if (seen.has(hex(command))) continue;
            seen.add(hex(command));
            const line = spelled(module, command);
            if (line.length === 0) without += 1;
            else if (assembled(module, line) === hex(command)) words += 1;
            else console.log(`other bytes: ${Buffer.from(line)}`);
        }
    }
    console.log(words > 1000 && without > 100 ? 'lines spell their commands' : `${words} with words, ${without} without`);
}

function main() {
    const [path, task, ...rest] = process.argv.slice(2);
    const module = new Module(readFileSync(path));
    if (task === 'bent') printBent(rest);
    if (task === 'lines') printLines(module);
    if (task === 'codes') printCodes(module, rest);
    if (task === 'spelled') printSpelled(module, rest);
}

main();
