"use strict";
// The program in this page: a module for the browser, with memory of 64 bits. Each run has an instance of its own, which is dropped after it.

const FIRST_ROOM = 1 << 20, MOST_ROOM = 1 << 28;
let module_of_program = null;

async function loadProgram() {
  const packed = Uint8Array.from(atob(MODULE), letter => letter.charCodeAt(0));
  const stream = new Blob([packed]).stream().pipeThrough(new DecompressionStream("gzip"));
  module_of_program = await WebAssembly.compile(await new Response(stream).arrayBuffer());
}

// The exit status of the program for these bytes, and the bytes that it prints. If they don't fit into the room, it is run again with more.
function runProgram(bytes, brief, room = FIRST_ROOM) {
  const { exports } = new WebAssembly.Instance(module_of_program), words = [bytes.length, room, 8].map(BigInt);
  const [given, printed, length] = words.map(exports.page_room);
  if (!given || !printed || !length) return { status: 6, bytes: new Uint8Array(0) };
  new Uint8Array(exports.memory.buffer, Number(given), bytes.length).set(bytes);
  const status = exports.tap_page_run(brief ? 1 : 0, given, words[0], printed, words[1], length) & 255;
  if (status === 4 && room < MOST_ROOM) return runProgram(bytes, brief, room * 8);
  const count = Number(new DataView(exports.memory.buffer).getBigUint64(Number(length), true));
  return { status, bytes: new Uint8Array(exports.memory.buffer, Number(printed), count).slice() };
}

function runText(text, brief) {
  const { status, bytes } = runProgram(new TextEncoder().encode(text), brief);
  return { status, text: new TextDecoder().decode(bytes) };
}
