// The errors that this package throws. The `name` of an error is the name of its class, so that
// programs can use either `instanceof` or `name`.

/** Thrown if an argument has a wrong type or is out of range. The call had no effect. */
export class BadArgument extends TypeError {
  /**
   * @param {string} argument its name
   * @param {string} wanted what is expected
   */
  constructor(argument, wanted) {
    super(`${argument} is not ${wanted}`);
    this.name = "BadArgument";
    this.argument = argument;
  }
}

/** The base class of errors about an invalid text. `fault` is the first fault of the text. */
export class BadText extends Error {
  /**
   * @param {string} name
   * @param {string} fault
   */
  constructor(name, fault) {
    super(fault);
    this.name = name;
    this.fault = fault;
  }
}

/** Thrown if bytes are not an image. The fault is Short, Magic, Version, Length, Digest or Body. */
export class BadImage extends BadText {
  /** @param {string} fault */
  constructor(fault) {
    super("BadImage", fault);
  }
}

/** Thrown if bytes are not a state text. The fault is Short, Magic, Version, Length, Digest, Body or
 * Earlier (version 1). */
export class BadState extends BadText {
  /** @param {string} fault */
  constructor(fault) {
    super("BadState", fault);
  }
}

/**
 * Thrown if a text is not a journal (NoJournal), an entry is invalid (Damaged), or the device's
 * response to an entry differs from the recorded one (Otherwise).
 */
export class BadJournal extends BadText {
  /** @param {string} fault */
  constructor(fault) {
    super("BadJournal", fault);
  }
}

/** Thrown if a line is invalid. The fault is BadName, BadField, Missing, Range or TooLong. */
export class BadLine extends BadText {
  /**
   * @param {string} fault
   * @param {number} column counted from 1; 0 if the fault has no column
   * @param {string} wanted what is expected there
   * @param {number} line its number in a script, counted from 1; 0 if there is no script
   */
  constructor(fault, column, wanted, line = 0) {
    super("BadLine", fault);
    this.column = column;
    this.wanted = wanted;
    this.line = line;
    const place = column === 0 ? fault : `${fault} ${column}`;
    this.message = `${line === 0 ? "" : `line ${line}: `}${place}${wanted && `: ${wanted}`}`;
  }
}

/** Thrown if the device has been disposed of. */
export class DeviceEnded extends Error {
  constructor() {
    super("the device was disposed of");
    this.name = "DeviceEnded";
  }
}

/** Thrown if there is no module, or if the module is not of this version. */
export class NoModule extends Error {
  /**
   * @param {string} reason
   * @param {{cause?: unknown}} [options]
   */
  constructor(reason, options) {
    super(reason, options);
    this.name = "NoModule";
  }
}

/**
 * Thrown by `accepted` if the device refuses the command. `code` is the response code, `meaning` its
 * name and what is at fault, and `answer` the whole answer.
 */
export class Refused extends Error {
  /**
   * @param {string} command the command's name, or its number and that the device does not have it
   * @param {number} code
   * @param {import("./module.js").Meaning | null} meaning
   * @param {import("./device.js").Answer} answer
   */
  constructor(command, code, meaning, answer) {
    const place = meaning === null || meaning.place === "" ? "" : `/${meaning.place[0]}${meaning.number}`;
    const name = meaning?.name ?? "unknown";
    super(`${command}: ${name}${place} (${code.toString(16).toUpperCase()}), by ${answer.row.check}`);
    this.name = "Refused";
    this.code = code;
    this.meaning = meaning;
    this.answer = answer;
  }
}
