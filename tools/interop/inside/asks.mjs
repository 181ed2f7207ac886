// Lets sweep_own.py refuse a command of a program in JavaScript, as asks.c does for programs that contain libtpmsim:
//
//   node --import .../asks.mjs PROGRAM
//
// TPMSIM_PACKAGE is the folder of the package. The program's calls return their results directly, but node has no
// such calls for sockets. So a thread holds the socket TPMSIM_ASKED, and the program's thread waits for it.

import { connect } from "node:net";
import { isMainThread, parentPort, Worker, workerData } from "node:worker_threads";

const ANOTHER_STATE = 1;
const RESPONSE = 2;
const MOST = 65536;
const HEAD = 8;

/** Holds the socket: sends each message, and writes the reply to the shared memory if there is one. */
function hold({ path, control, shared }) {
  const socket = connect(path);
  let received = Buffer.alloc(0);
  const done = (size) => {
    Atomics.store(control, 1, size);
    Atomics.store(control, 0, 1);
    Atomics.notify(control, 0);
  };
  socket.on("data", (data) => {
    received = Buffer.concat([received, data]);
    if (received.length < HEAD || received.length < HEAD + received.readUInt32LE(4)) return;
    shared.set(received);
    const size = received.length;
    received = Buffer.alloc(0);
    done(size);
  });
  parentPort.on("message", ({ message, hasReply }) => {
    socket.write(message, () => hasReply || done(0));
  });
}

const number = (it) => {
  const bytes = Buffer.alloc(4);
  bytes.writeUInt32LE(it);
  return bytes;
};
const sized = (bytes) => Buffer.concat([number(bytes.length), bytes]);

/** The number of a check, as in tpmsim.h. */
const numberOf = (check) => {
  if (check === "ok") return 0;
  return Number(check.slice(1)) + (check[0] === "A" ? 20 : 0);
};

async function begin(path) {
  const control = new Int32Array(new SharedArrayBuffer(8));
  const shared = new Uint8Array(new SharedArrayBuffer(MOST + HEAD));
  const workerData = { path, control, shared };
  const worker = new Worker(new URL(import.meta.url), { workerData, execArgv: [] });
  worker.unref();

  const tell = (message, hasReply) => {
    Atomics.store(control, 0, 0);
    worker.postMessage({ message, hasReply });
    Atomics.wait(control, 0, 0);
    return Buffer.from(shared.slice(0, Atomics.load(control, 1)));
  };

  const { Chip } = await import(`${process.env.TPMSIM_PACKAGE}/src/chip.js`);
  for (const [completes, name] of ["execute", "complete"].entries()) {
    const own = Chip.prototype[name];
    Chip.prototype[name] = function (buffer, locality, elapsed, random) {
      const event = [Buffer.from([locality, completes]), number(elapsed), Buffer.from(random)];
      const asked = tell(Buffer.concat([sized(this.snapshot()), sized(buffer), ...event]), true);
      const given = asked.subarray(HEAD);
      let answer = { response: new Uint8Array(given), code: 0, check: "G1", drawn: 0, trace: "" };
      if (asked.readUInt32LE(0) === ANOTHER_STATE) this.restore(given);
      if (asked.readUInt32LE(0) !== RESPONSE) answer = own.call(this, buffer, locality, elapsed, random);
      const check = Buffer.from([numberOf(answer.check)]);
      tell(Buffer.concat([sized(answer.response), check, sized(this.snapshot())]), false);
      return answer;
    };
  }
}

if (!isMainThread) hold(workerData);
else if (process.env.TPMSIM_ASKED) await begin(process.env.TPMSIM_ASKED);
