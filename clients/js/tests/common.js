// Constants and functions that several tests use.

/** The random bytes with which the device of a script is manufactured. */
export const ZERO_TO_FF = Uint8Array.from({ length: 256 }, (_, at) => at);

/** @param {Uint8Array} bytes */
export const hex = (bytes) => Buffer.from(bytes).toString("hex");
