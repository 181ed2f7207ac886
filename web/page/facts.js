// The contents of the repository's tables. web/build.py collects them, and the page contains them
// as data.

/**
 * @typedef {{name: string, kind: string, isAuthorized: boolean}} HandleFact
 * @typedef {{name: string, kind: string}} ParameterFact
 * @typedef {{
 *   name: string, number: number, form: string, section: string, handles: HandleFact[],
 *   parameters: ParameterFact[], answeredHandles: string[], answeredParameters: ParameterFact[],
 * }} CommandFact
 * @typedef {{fixed: string[], isPcr: boolean, first: number[], words: string}} HandleKindFact
 * @typedef {[string, string]} RuleFact a sentence, and the link to it in the table
 * @typedef {Record<string, string>} Names by their numbers
 * @typedef {{name: string, example?: string, script?: string[], code: string}} Story a script with a refusal
 * @typedef {{
 *   commands: CommandFact[], otherCommands: Names, handleKinds: Record<string, HandleKindFact>,
 *   kindWords: Record<string, string>, rules: Record<string, RuleFact>, examples: [string, string][],
 *   algorithms: Names, handleNames: Record<string, number>, ofFirstByte: Names, sessions: Names,
 *   entryFlags: Names, objectFlags: Names, nvFlags: Names, nvTypes: Names, operations: string[],
 *   starts: Names, tickets: Names, tags: Names, pcrs: number, docs: string, version: string, stories: Story[],
 *   codes: Record<string, [string, string, [string, string][]]>, layers: Names,
 * }} Facts
 */

/** @type {Facts} */
export const facts = /** @type {any} */ ({});
/** @type {Map<string, CommandFact>} */
export const byName = new Map();
/** @type {Map<number, CommandFact>} */
export const byNumber = new Map();

/** @param {Facts} found */
export function learn(found) {
  Object.assign(facts, found);
  for (const command of facts.commands) {
    byName.set(command.name, command);
    byNumber.set(command.number, command);
  }
}
