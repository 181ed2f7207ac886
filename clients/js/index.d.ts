// The types of the package: a TPM 2.0 in a page or a process.

/** The module or its bytes. By default, `tpmsim.wasm` next to the package is loaded once. */
export type ModuleSource = ArrayBufferView | ArrayBuffer | CompiledModule;

/** A WebAssembly.Module, without a need for the types of the DOM. */
export type CompiledModule = object;

declare global {
  interface SymbolConstructor {
    /** Declared by the types of node and by TypeScript 5.2, too. */
    readonly dispose: unique symbol;
  }
}

export interface Making {
  /** The seed of the random bytes. The same seed results in the same bytes in each run, and in
   * Python's `Device(seed=..)`. */
  seed?: string | Uint8Array;
  /**
   * The 256 bytes from which the device's secrets are made, instead of bytes from the seed or the system.
   */
  manufactured?: Uint8Array;
  /** An image to open. The device is then in the state after a power cycle. */
  image?: Uint8Array;
  /** A state text: the device is restored from it. */
  state?: Uint8Array;
  module?: ModuleSource;
}

export interface Event {
  /** 0 to 4; default 0. */
  locality?: number;
  /** Milliseconds since the last command; default 0. */
  elapsed?: number;
  /** The command's 256 random bytes, instead of the device's own. */
  random?: Uint8Array;
  /** Whether the completing layer is above the device, for tpm2-tools and firmware. */
  complete?: boolean;
}

export interface Row {
  /** The command code, TPM_CC, or 0 if the buffer contains none. */
  code: number;
  /** `ok`, or the check that refused the command: `G1` to `G11`, `A1` to `A7`. */
  check: string;
}

export interface Answer {
  response: Uint8Array;
  row: Row;
  /** The number of random bytes that the command drew, from the beginning of its 256. */
  drawn: number;
  /** The trace, such as `Startup L0 +0 ok 00000000`; empty with the completing layer. */
  trace: string;
}

export interface PlayedCommand {
  /** The number of the line, from 1. */
  line: number;
  command: Uint8Array;
  answer: Answer;
  trace: string;
}

export interface PlayedPower {
  line: number;
  command: null;
  answer: null;
  trace: "power";
}

export interface Meaning {
  /** The code's name without TPM_RC_, such as `AUTH_FAIL`. */
  name: string;
  place: "" | "handle" | "parameter" | "session";
  /** The number of the handle, parameter or session, from 1; 0 if the code refers to none of
   * these. */
  number: number;
}

/** A TPM whose power is on. Devices share nothing but the module's memory. */
export class Device {
  private constructor();
  /** Makes a new device, or one from an image or a state text. */
  static create(making?: Making): Promise<Device>;
  /** Executes a command, whatever its bytes are. */
  execute(command: Uint8Array, event?: Event): Answer;
  /** Executes a command in words, such as `GetRandom 4`. */
  do(line: string, event?: Event): Answer;
  /** Executes a command, as bytes or in words. Throws Refused if the device refuses it. */
  accepted(command: Uint8Array | string, event?: Event): Answer;
  /** Plays a script line by line, as the caller iterates over its events. Throws BadLine at an
   * invalid line. */
  play(script: string | Uint8Array): Generator<PlayedCommand | PlayedPower, void, undefined>;
  /** Power-cycles the device, which then expects TPM2_Startup. */
  powerCycle(): void;
  /** Returns the image, which contains everything that the device keeps while it has no power,
   * including its secrets. */
  save(): Uint8Array;
  /** Returns everything that the device keeps while it has no power, except its clock. */
  kept(): Uint8Array;
  /** Replaces the device with the one in an image, in the state after a power cycle. If it throws
   * BadImage, nothing changes. */
  open(image: Uint8Array): void;
  /** Returns the state text: the whole state of the device, with its sessions and secrets. */
  snapshot(): Uint8Array;
  /** Restores the device from a state text. If it throws BadState, nothing changes. */
  restore(state: Uint8Array): void;
  /** Begins a log from the current state of the device. Without this call, there is no log. */
  beginLog(): void;
  /** The log, which tpmsim-explain reads, or an empty string. It contains all secrets. */
  readonly log: string;
  /** Frees the device's memory after clearing it. Each later call throws DeviceEnded. */
  dispose(): void;
  /** The same as `dispose`, for `using`. */
  [Symbol.dispose](): void;
  /** Commands and response codes in words. */
  readonly words: Words;
}

/** Commands and response codes in words. */
export class Words {
  private constructor();
  static load(options?: { module?: ModuleSource }): Promise<Words>;
  /** The version of the module, such as `0.1.0`. */
  readonly version: string;
  /** Returns the buffer of a command in words, such as `GetRandom 4`. Throws BadLine if the words do
   * not encode a command. */
  assemble(line: string): Uint8Array;
  /** Returns a line in words that encodes exactly these bytes, or null if there is none. */
  spell(command: Uint8Array): string | null;
  /** Returns the meaning of a response or a response code, or null if there is no such code. */
  meaning(given: Uint8Array | number): Meaning | null;
  /** Returns the number of the command with this name, or null if there is none. */
  commandNumber(name: string): number | null;
  /** Returns the name of the command with this number, or null if there is none. */
  commandName(code: number): string | null;
  /** Returns the form of a command in words, such as `NV_Write @Entity Index Buffer u16`, or null if
   * there is none. */
  commandForm(code: number): string | null;
  /** Returns a complete line for a command, as an example, or null if there is none. */
  commandExample(code: number): string | null;
}

/** Thrown if an argument has a wrong type or is out of range. The call had no effect. */
export class BadArgument extends TypeError {
  private constructor();
  argument: string;
}

/** Thrown if bytes are not an image. The fault is Short, Magic, Version, Length, Digest or Body. */
export class BadImage extends Error {
  private constructor();
  fault: string;
}

/** Thrown if bytes are not a state text. The fault is Short, Magic, Version, Length, Digest, Body or
 * Earlier (version 1). */
export class BadState extends Error {
  private constructor();
  fault: string;
}

/** Thrown if a line is invalid. The fault is BadName, BadField, Missing, Range or TooLong. */
export class BadLine extends Error {
  private constructor();
  fault: string;
  /** The column of the fault, counted from 1, or 0 if the fault has no column. */
  column: number;
  /** What is expected at that column, such as `u16`. */
  wanted: string;
  /** The line of the script, counted from 1, or 0 if there is no script. */
  line: number;
}

/** Thrown by `accepted` if the device refuses the command. */
export class Refused extends Error {
  private constructor();
  /** The response code, TPM_RC. */
  code: number;
  meaning: Meaning | null;
  answer: Answer;
}

/** Thrown if the device has been disposed of. */
export class DeviceEnded extends Error {
  private constructor();
}

/** Thrown if there is no module, or if the module is not of this version. */
export class NoModule extends Error {
  private constructor();
}
