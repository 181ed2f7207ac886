// The memory of the proved module: its blocks, and the bytes in them.

const PAGE = 65_536;
const ALIGNMENT = 16;

const decoder = new TextDecoder();

/** @param {number} size */
const aligned = (size) => Math.ceil(size / ALIGNMENT) * ALIGNMENT;

/** The module's memory above the base of its heap. New blocks contain zeros. */
export class Memory {
  #memory;
  #end;
  #bytes = new Uint8Array();
  #view = new DataView(new ArrayBuffer(0));
  /** @type {Map<number, number[]>} */
  #free = new Map();
  #input;
  #output;

  /**
   * @param {WebAssembly.Memory} memory
   * @param {number} base
   */
  constructor(memory, base) {
    this.#memory = memory;
    this.#end = aligned(base);
    this.#look();
    this.#input = { at: this.lend(PAGE), size: PAGE };
    this.#output = { at: this.lend(PAGE), size: PAGE };
  }

  /** Creates the views of the current memory. They become invalid when the memory grows. */
  #look() {
    this.#bytes = new Uint8Array(this.#memory.buffer);
    this.#view = new DataView(this.#memory.buffer);
  }

  /**
   * Allocates a block, and returns its address.
   * @param {number} size
   */
  lend(size) {
    const free = this.#free.get(size)?.pop();
    if (free !== undefined) return free;
    const at = this.#end;
    const end = at + aligned(size);
    if (end > this.#bytes.length) {
      this.#memory.grow(Math.ceil((end - this.#bytes.length) / PAGE));
      this.#look();
    }
    this.#end = end;
    return at;
  }

  /**
   * Frees a block, and clears its contents.
   * @param {number} at
   * @param {number} size
   */
  free(at, size) {
    this.#bytes.fill(0, at, at + size);
    const free = this.#free.get(size) ?? [];
    free.push(at);
    this.#free.set(size, free);
  }

  /**
   * Replaces a block that is too small with one of at least `needed` bytes.
   * @param {{at: number, size: number}} block
   * @param {number} needed
   */
  #larger(block, needed) {
    const size = 2 ** Math.ceil(Math.log2(needed));
    const at = this.lend(size);
    this.free(block.at, block.size);
    return { at, size };
  }

  /**
   * Stores bytes for a call, and returns their address and size as parameters of the call. The
   * address is valid until this method stores other bytes.
   * @param {Uint8Array} bytes
   */
  input(bytes) {
    if (bytes.length > this.#input.size) this.#input = this.#larger(this.#input, bytes.length);
    this.put(this.#input.at, bytes);
    return [BigInt(this.#input.at), BigInt(bytes.length)];
  }

  /**
   * Returns the bytes that a call writes to a buffer. The call returns the number of bytes. If they
   * do not fit, the call writes nothing, and is repeated with a larger buffer.
   * @param {(at: bigint, size: bigint) => bigint} call
   */
  output(call) {
    for (;;) {
      const { at, size } = this.#output;
      const needed = Number(call(BigInt(at), BigInt(size)));
      if (needed <= size) return this.take(at, needed);
      this.#output = this.#larger(this.#output, needed);
    }
  }

  /**
   * @param {number} at
   * @param {Uint8Array} bytes
   */
  put(at, bytes) {
    this.#bytes.set(bytes, at);
  }

  /**
   * @param {number} at
   * @param {number} number
   */
  putWord(at, number) {
    this.#view.setUint32(at, number, true);
  }

  /**
   * Returns a copy of bytes.
   * @param {number} at
   * @param {number} size
   */
  take(at, size) {
    return this.#bytes.slice(at, at + size);
  }

  /**
   * @param {number} at
   * @param {number} size
   */
  text(at, size) {
    return decoder.decode(this.#bytes.subarray(at, at + size));
  }

  /** @param {number} at */
  byte(at) {
    return this.#bytes[at];
  }

  /** @param {number} at */
  word(at) {
    return this.#view.getUint32(at, true);
  }

  /** @param {number} at */
  size(at) {
    return Number(this.#view.getBigUint64(at, true));
  }
}
