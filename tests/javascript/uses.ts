// A program that uses each declaration of the package. The type checker must refuse the marked
// lines.

import { BadArgument, BadImage, BadLine, BadState, Device, DeviceEnded, NoModule, Words } from "tpmsim";
import type { Answer, Event, Making, Meaning, PlayedCommand, PlayedPower, Row } from "tpmsim";

const making: Making = { seed: "mine", manufactured: new Uint8Array(256) };
const event: Event = { locality: 3, elapsed: 7, random: new Uint8Array(256), complete: true };

export async function use(bytes: Uint8Array, compiled: WebAssembly.Module): Promise<Meaning | null> {
  const tpm: Device = await Device.create(making);
  const other: Device = await Device.create({ image: tpm.save(), state: tpm.snapshot(), module: compiled });
  const answer: Answer = tpm.execute(bytes, event);
  const row: Row = tpm.do("GetRandom 4").row;
  for (const played of tpm.play("power\n")) {
    if (played.command === null) {
      const power: PlayedPower = played;
      console.log(power.trace.length);
    } else {
      const command: PlayedCommand = played;
      console.log(command.answer.response.length);
    }
  }
  other.open(tpm.kept());
  other.restore(bytes);
  other.powerCycle();
  other.dispose();
  const words: Words = await Words.load({ module: bytes });
  const name: string | null = words.commandName(row.code);
  const number: number | null = tpm.words.commandNumber("NV_Write");
  console.log(words.version, name, number, words.spell(words.assemble("GetRandom 4")), answer.drawn);
  console.log(words.commandForm(1), words.commandExample(1));
  return words.meaning(answer.response);
}

export function told(fault: unknown): string | number {
  if (fault instanceof BadLine) return fault.line + fault.column;
  if (fault instanceof BadImage || fault instanceof BadState) return fault.fault;
  if (fault instanceof BadArgument) return fault.argument;
  return fault instanceof DeviceEnded || fault instanceof NoModule ? fault.name : "";
}

export async function refused(tpm: Device): Promise<void> {
  // @ts-expect-error
  tpm.execute("80010000000c000001440000");
  // @ts-expect-error
  tpm.execute(new Uint8Array(10), { elasped: 5 });
  // @ts-expect-error
  tpm.do("GetRandom 4").row.check = 7;
  // @ts-expect-error
  const image: string = tpm.save();
  // @ts-expect-error
  new Device();
  // @ts-expect-error
  const made: Device = Device.create();
  // @ts-expect-error
  const line: string = tpm.words.spell(new Uint8Array(10));
  console.log(image, made, line);
}
