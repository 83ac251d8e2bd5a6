// The proved scheduler as a WebAssembly module with 64-bit memory: docs/CODE.md says how it is made. Pointers and lengths
// are BigInt. Each run has an instance of its own, since one that trapped may not be called again.

const HAND_BYTES = 16;
// a module with one 64-bit memory, which tells whether a browser has these
const LEAST_MODULE = [0, 0x61, 0x73, 0x6d, 1, 0, 0, 0, 5, 3, 1, 4, 1];
const DONE = 0;
const NO_MEMORY = 1;
const OUT_OF_MEMORY = { fault: "fault memory", findings: "" };

/** Whether WebAssembly has 64-bit memory here. */
export function hasMemory64() {
  return typeof WebAssembly === "object" && WebAssembly.validate(new Uint8Array(LEAST_MODULE));
}

/** The bytes of a module that the page holds as base64 of gzip. */
export async function unpacked(base64) {
  const packed = Uint8Array.from(atob(base64), (letter) => letter.charCodeAt(0));
  const stream = new Blob([packed]).stream().pipeThrough(new DecompressionStream("gzip"));
  return new Uint8Array(await new Response(stream).arrayBuffer());
}

/**
 * Schedules so many rounds of a configuration and a trace, given as bytes.
 * Answers { maps, report } as bytes, or { fault, findings }: the line that `mapsim replay` prints, and a line for each error of
 * the texts, as `mapsim lint` prints it behind the name of a file; no lines where they have none, or memory is wanting.
 * @throws {WebAssembly.RuntimeError} a trap of the module
 */
export async function scheduled(module, config, trace, rounds) {
  const { instance } = await WebAssembly.instantiate(module, {});
  const call = new Calls(instance.exports);
  const hand = call.put(new Uint8Array(HAND_BYTES));
  const texts = [call.put(config), call.put(trace)];
  if (!hand || texts.includes(null)) return OUT_OF_MEMORY;
  const both = texts.flatMap(({ place, length }) => [place, length]);
  const status = instance.exports.page_run(hand.place, ...both, rounds >>> 0);
  if (status === NO_MEMORY) return OUT_OF_MEMORY;
  if (status !== DONE) return refusal(call, hand, both);
  const answer = { maps: call.read("page_maps", hand), report: call.read("page_report", hand) };
  return answer.maps && answer.report ? answer : OUT_OF_MEMORY;
}

/** Why the texts are refused, where the hand holds the fault's line. */
function refusal(call, hand, both) {
  const fault = call.read("page_fault", hand);
  if (!fault) return OUT_OF_MEMORY;
  const hasFindings = call.exports.page_lint(hand.place, ...both) > NO_MEMORY;
  const findings = (hasFindings && call.read("page_fault", hand)) || new Uint8Array();
  const decoder = new TextDecoder();
  return { fault: decoder.decode(fault), findings: decoder.decode(findings) };
}

/** Bytes in and out of a module. Its memory is looked at anew each time, since a call may have let it grow. */
class Calls {
  constructor(exports) {
    this.exports = exports;
  }

  at(place, length) {
    return new Uint8Array(this.exports.memory.buffer, Number(place), Number(length));
  }

  /** A place for so many bytes, which is never null; null where memory is wanting. */
  room(length) {
    if (length === 0n) return { place: 1n, length };
    const place = BigInt.asUintN(64, this.exports.page_buffer(length));
    return place === 0n ? null : { place, length };
  }

  /** A copy of bytes in the module's memory; null where memory is wanting. */
  put(bytes) {
    const room = this.room(BigInt(bytes.length));
    if (room && bytes.length > 0) this.at(room.place, room.length).set(bytes);
    return room;
  }

  /** The bytes that an export answers; null where memory is wanting. */
  read(name, hand) {
    const length = BigInt.asUintN(64, this.exports[name](hand.place, 1n, 0n));
    const room = this.room(length);
    if (!room) return null;
    this.exports[name](hand.place, room.place, length);
    return this.at(room.place, length).slice();
  }
}
