// The exports of the package; index.d.ts declares them.

export { Device } from "./device.js";
export {
  BadArgument,
  BadImage,
  BadLine,
  BadState,
  DeviceEnded,
  NoModule,
  Refused,
} from "./errors.js";
export { Words } from "./words.js";
