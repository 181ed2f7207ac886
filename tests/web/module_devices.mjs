// Checks how the module saves and opens devices, for module_devices.sh: valid and invalid images,
// state texts and journals, handles that are used again, the completing layer, and calls without a
// device.
import { readFileSync } from 'node:fs';
import { Module, Player, hex } from '../../web/play.mjs';

const module = new Module(readFileSync(process.argv[2]));
const { calls } = module;
const script = ['do Startup 0', 'do NV_DefineSpace OWNER pw:- - 01000001000b0002000200000008',
    'do NV_Write OWNER 01000001 pw:- 0011223344556677 0', 'do PCR_Extend 0000000a pw:- sha256:' + '5a'.repeat(32),
    'wait 1500', 'do StartAuthSession NULL NULL 000102030405060708090a0b0c0d0e0f - 1 null sha256'];
const asked = ['do NV_Read OWNER 01000001 pw:- 8 0', 'do PCR_Read sha256:10', 'do ReadClock', 'do PolicyGetDigest 03000000'];

/** @param {string} name @param {boolean} good */
function told(name, good) {
    console.log(`${name}: ${good ? 'yes' : 'NO'}`);
}

/** Executes lines, and returns what they print. @param {Player} player @param {string[]} lines */
function perform(player, lines) {
    const from = player.printed.length;
    for (const line of lines) {
        const fault = player.line(Buffer.from(line));
        if (fault !== '') throw new Error(`${line}: ${fault}`);
    }
    return player.printed.slice(from).join('');
}

/** Returns the text that a call writes to the buffer for texts. @param {string} call @param
 * {bigint[]} before the call's arguments before the buffer */
function text(call, ...before) {
    const size = Number(calls[call](module.to('holder'), ...before, module.to('text'), 65536n));
    return module.front('text', size);
}

/** @param {string} call @param {Uint8Array} bytes */
const given = (call, bytes) => calls[call](module.to('holder'), ...module.lend(bytes));

/** @param {string} call @param {Uint8Array} bytes */
const opened = (call, bytes) => calls[call](module.to('holder'), ...module.lend(bytes), module.to('taken'));

/** @param {Uint8Array} bytes @param {number} place */
const damaged = (bytes, place) => bytes.map((byte, at) => (at === place ? byte ^ 1 : byte));

function checkImages() {
    const player = new Player(module, false);
    perform(player, script);
    const image = text('device_save');
    told('an image is as long as it says', image.length > 42);
    const before = text('device_snapshot');
    const numbers = [image.subarray(0, 41), damaged(image, 0), damaged(image, 5), image.subarray(0, 60), damaged(image, 50)]
        .map((bytes) => given('device_open', bytes));
    told('bad images are refused by their faults', numbers.join() === '4,5,6,7,8');
    told('a refused image leaves the device', hex(text('device_snapshot')) === hex(before));
    told('an image is opened', given('device_open', image) === 0);
    perform(player, ['power', 'do Startup 0']);
    told('the opened device has its data', /0011223344556677/.test(perform(player, asked.slice(0, 1))));
    told('the opened device has no session', perform(player, asked.slice(3)).length === 21);
}

function checkStates() {
    const player = new Player(module, false);
    perform(player, script);
    const state = text('device_snapshot');
    const answers = perform(player, asked);
    perform(player, ['do NV_Write OWNER 01000001 pw:- ffffffffffffffff 0', 'power', 'do Startup 0']);
    told('the device went on', perform(player, asked) !== answers);
    const numbers = [state.subarray(0, 41), damaged(state, 0), damaged(state, 4), state.subarray(0, 60), damaged(state, 50)]
        .map((bytes) => given('device_restore', bytes));
    told('bad state texts are refused by their faults', numbers.join() === '13,14,15,16,17');
    told('a state text is restored', given('device_restore', state) === 0);
    told('the restored device is the one of the text', hex(text('device_snapshot')) === hex(state));
    told('the restored device answers alike', perform(player, asked) === answers);
}

/** @param {string} words @param {bigint} now @param {number} completes */
function record(words, now, completes) {
    calls.line_assemble(...module.lend(Buffer.from(words)), ...['written', 'wanted', 'read'].map((name) => module.to(name)));
    const command = module.lend(module.front('written', module.size('read', 0)));
    const number = calls.journal_execute(module.to('holder'), ...command, 0, now, completes,
        ...['random', 'response', 'answered', 'entry', 'taken'].map((name) => module.to(name)));
    if (number !== 0) throw new Error(`journal_execute answers ${number}`);
    return module.front('entry', module.size('taken', 0));
}

function checkJournals() {
    const player = new Player(module, false);
    perform(player, script);
    const head = text('journal_begin', 5000n);
    const entries = [record('Startup 0', 6000n, 0), record('GetRandom 8', 7000n, 1)];
    const whole = Buffer.concat([head, ...entries]);
    const after = text('device_snapshot');
    const checkpoint = text('journal_checkpoint', 9000n);
    calls.device_release(module.to('holder'));
    told('a journal is not opened without a device', opened('journal_open', whole) === 1);
    new Player(module, false);
    told('a journal is opened', opened('journal_open', whole) === 0 && module.size('taken', 0) === whole.length);
    told('the opened device is the one of the journal', hex(text('device_snapshot')) === hex(after));
    told('no journal is told', opened('journal_open', head.subarray(1)) === 10);
    told('a damaged entry is told', opened('journal_open', damaged(whole, whole.length - 3)) === 11);
    told('a refused journal leaves the device', hex(text('device_snapshot')) === hex(after));
    told('a checkpoint is opened', opened('journal_open', checkpoint) === 0);
    told('the device of a checkpoint is whole', hex(text('device_snapshot')) === hex(after));
    new Player(module, false);
    opened('journal_open', head);
    told('entries are followed', opened('journal_follow', Buffer.concat(entries)) === 0);
    told('the following device is the same', hex(text('device_snapshot')) === hex(after));
}

function checkLayer() {
    const player = new Player(module, false);
    perform(player, ['do Startup 0']);
    const command = module.lend(Buffer.from('8001000000160000017a000000020000014600000005', 'hex'));
    const random = module.to('random');
    calls.device_execute(module.to('holder'), ...command, 0, 0, random, module.to('response'), module.to('answered'), module.to('trace'));
    const alone = hex(module.front('response', module.size('answered', 0)));
    const number = calls.device_complete(module.to('holder'), ...command, 0, 0, random, module.to('response'), module.to('answered'));
    const completed = hex(module.front('response', module.size('answered', 0)));
    told('the completing layer lists other commands', number === 0 && completed !== alone);
    told('a completed command has no trace', module.size('answered', 16) === 0);
}

function checkHolders() {
    calls.device_release(module.to('holder'));
    const random = module.to('random');
    const command = module.lend(Buffer.from('80010000000c000001440000', 'hex'));
    const execute = (/** @type {number} */ locality) => calls.device_execute(module.to('holder'), ...command, locality, 0, random,
        module.to('response'), module.to('answered'), module.to('trace'));
    told('a command needs a device', execute(0) === 1 && execute(5) === 2 && calls.device_cycle_power(module.to('holder')) === 1);
    told('texts need a device', text('device_save').length + text('device_kept').length + text('device_snapshot').length === 0);
    told('opening needs a device', given('device_open', new Uint8Array(50)) === 1 && given('device_restore', new Uint8Array(50)) === 1);
    const player = new Player(module, false);
    told('a place is used again', /^80010000000a00000000\n$/.test(perform(player, ['do Startup 0'])));
    told('the version is that of the library', calls.device_version() === 0x100);
    told('a small buffer is left as it is', calls.device_save(module.to('holder'), module.to('text'), 10n) > 10n);
}

checkImages();
checkStates();
checkJournals();
checkLayer();
checkHolders();
