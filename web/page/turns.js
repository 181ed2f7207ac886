// Long work in parts. A generator does the work and yields after each part, so that the browser gets
// its turn in between, and so that the work can be given up.

const SLICE = 16;

/**
 * Does parts of the work for this many milliseconds, at least one part. The result says whether the
 * work is done.
 * @template T @param {Generator<void, T>} work @param {number} milliseconds
 */
export function forAWhile(work, milliseconds) {
  const end = performance.now() + milliseconds;
  let part = work.next();
  while (!part.done && performance.now() < end) part = work.next();
  return part;
}

/**
 * Does the whole work at once, and returns its result.
 * @template T @param {Generator<void, T>} work
 */
export function atOnce(work) {
  let part = work.next();
  while (!part.done) part = work.next();
  return part.value;
}

/**
 * Does the work in slices, between which the browser gets its turn. Returns the result of the work, or null as
 * soon as it is not needed any more.
 * @template T @param {Generator<void, T>} work @param {() => boolean} isNeeded
 * @returns {Promise<T | null>}
 */
export async function inTurns(work, isNeeded) {
  let part = forAWhile(work, SLICE);
  while (!part.done) {
    await new Promise((go) => setTimeout(go));
    if (!isNeeded()) return null;
    part = forAWhile(work, SLICE);
  }
  return part.value;
}
