// Runs lrcheck as a module of WebAssembly, in a worker. The first message has the module; each other one is a call.
'use strict';

const PAGE = 3;
let program;

// The whole of what was written in pieces.
function text(pieces) {
  const decoder = new TextDecoder();
  return pieces.map((piece) => decoder.decode(piece, { stream: true })).join('') + decoder.decode();
}

// What system.c calls: it reads the grammar, and writes to standard output, standard error and the page.
function system(words, grammar, written) {
  const encoder = new TextEncoder();
  const encoded = words.map((word) => encoder.encode(word));
  let unread = encoder.encode(grammar);
  const made = {
    memory: null,
    bytes: (place, count) => new Uint8Array(made.memory.buffer, Number(place), Number(count)),
    calls: {
      arguments: () => BigInt(encoded.length),
      argument: (number, place, most) => {
        const word = encoded[Number(number)];
        if (!word) return -1n;
        if (word.length > Number(most)) return -2n;
        made.bytes(place, word.length).set(word);
        return BigInt(word.length);
      },
      read: (place, most) => {
        const part = unread.subarray(0, Number(most));
        unread = unread.subarray(part.length);
        made.bytes(place, part.length).set(part);
        return BigInt(part.length);
      },
      write: (file, place, count) => written[file].push(made.bytes(place, count).slice()),
    },
  };
  return made;
}

// Calls the program with these words, of which the last one names the grammar.
async function call(words, grammar) {
  const written = [[], [], [], []];
  const host = system(words, grammar, written);
  const instance = await WebAssembly.instantiate(program, { host: host.calls });
  host.memory = instance.exports.memory;
  const status = instance.exports.main(0, 0n);
  return { status, out: text(written[1]), err: text(written[2]), page: text(written[PAGE]) };
}

// The bytes of a text in base 64 that holds what gzip made of them.
function unpacked(packed) {
  const bytes = Uint8Array.from(atob(packed), (letter) => letter.charCodeAt(0));
  const stream = new Blob([bytes]).stream().pipeThrough(new DecompressionStream('gzip'));
  return new Response(stream).arrayBuffer();
}

onmessage = async ({ data }) => {
  try {
    if (data.module) {
      program = await WebAssembly.compile(await unpacked(data.module));
      postMessage({ isReady: true });
    } else {
      postMessage(await call(data.words, data.grammar));
    }
  } catch (error) {
    postMessage({ failure: String(error) });
  }
};
