// Reads captures of packets: pcapng, which libtss2's pcap module writes, and pcap.

const SECTION = 0x0a0d0d0a;
const INTERFACE = 1;
const PACKET = 6;
/** The numbers at the beginning of a pcap file, with times in microseconds and in nanoseconds. */
const PCAP = [0xa1b2c3d4, 0xa1b23c4d];
const PCAP_HEADER = 24;
const PACKET_HEADER = 16;
const BYTE_ORDER = 0x1a2b3c4d;
/** The size of the header before that of the Internet Protocol, by link type. */
const LINK_BYTES = new Map([[0, 4], [1, 14], [12, 0], [101, 0], [113, 16], [228, 0], [229, 0], [276, 20]]);
const TCP = 6;
/** The ports at which a simulator receives commands. */
const COMMAND_PORTS = [2321, 2322];

/**
 * @typedef {{payload: Uint8Array, isResponse: boolean | null}} Packet what a packet transports; `isResponse` is null
 *   unless its ports say it
 */

/** @param {Uint8Array} bytes */
const viewOf = (bytes) => new DataView(bytes.buffer, bytes.byteOffset, bytes.length);

/**
 * Returns whether bytes begin like a capture.
 * @param {Uint8Array} bytes
 */
export function isCapture(bytes) {
  if (bytes.length < PCAP_HEADER) return false;
  const view = viewOf(bytes);
  return view.getUint32(0) === SECTION || PCAP.includes(view.getUint32(0)) || PCAP.includes(view.getUint32(0, true));
}

/**
 * Yields the packets of a capture.
 * @param {Uint8Array} bytes
 */
export function* packetsOf(bytes) {
  const view = viewOf(bytes);
  if (view.getUint32(0) === SECTION) yield* packetsOfPcapng(bytes, view);
  else yield* packetsOfPcap(bytes, view, PCAP.includes(view.getUint32(0, true)));
}

/** @param {Uint8Array} bytes @param {DataView} view @param {boolean} isLittle */
function* packetsOfPcap(bytes, view, isLittle) {
  const link = view.getUint32(20, isLittle) & 0xffff;
  for (let at = PCAP_HEADER; at + PACKET_HEADER <= bytes.length;) {
    const start = at + PACKET_HEADER;
    at = start + view.getUint32(at + 8, isLittle);
    yield packetOf(link, bytes.subarray(start, at));
  }
}

/** @param {Uint8Array} bytes @param {DataView} view */
function* packetsOfPcapng(bytes, view) {
  let isLittle = true;
  /** @type {number[]} */
  let links = [];
  for (let at = 0; at + 12 <= bytes.length;) {
    if (view.getUint32(at) === SECTION) {
      isLittle = view.getUint32(at + 8, true) === BYTE_ORDER;
      links = [];
    }
    const kind = view.getUint32(at, isLittle);
    const size = view.getUint32(at + 4, isLittle);
    const body = bytes.subarray(at + 8, Math.max(at + 8, at + size - 4));
    if (kind === INTERFACE && body.length >= 2) links.push(viewOf(body).getUint16(0, isLittle));
    else if (kind === PACKET && body.length >= 20) {
      const captured = viewOf(body).getUint32(12, isLittle);
      yield packetOf(links[viewOf(body).getUint32(0, isLittle)] ?? 0, body.subarray(20, 20 + captured));
    }
    if (size < 12) return;
    at += size;
  }
}

/**
 * Returns what a packet of TCP transports. Another packet is returned whole.
 * @param {number} link @param {Uint8Array} bytes @returns {Packet}
 */
function packetOf(link, bytes) {
  const data = bytes.subarray(LINK_BYTES.get(link) ?? 0);
  const version = data.length ? data[0] >> 4 : 0;
  const header = version === 4 ? 4 * (data[0] & 15) : version === 6 ? 40 : 0;
  if (!header || data.length < header + 20 || data[version === 4 ? 9 : 6] !== TCP) return { payload: bytes, isResponse: null };
  const [source, target] = [0, 2].map((it) => viewOf(data).getUint16(header + it));
  const isKnown = COMMAND_PORTS.includes(source) || COMMAND_PORTS.includes(target);
  return { payload: data.subarray(header + 4 * (data[header + 12] >> 4)), isResponse: isKnown ? COMMAND_PORTS.includes(source) : null };
}
