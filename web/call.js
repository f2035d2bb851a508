// The call of the module: words, and files as pairs of a name and a text, in; { status, out, err, stored } back.
'use strict';

const FIRST_ROOM = 65536;
const MEMORY = 6;

// Memory of the module that is given back together.
function lender(exports) {
  const taken = [];
  return {
    take(size) {
      const at = exports.host_take(BigInt(Math.max(size, 16)));
      if (!at) throw new RangeError('no memory');
      taken.push(at);
      return at;
    },
    giveBack() {
      for (const at of taken) exports.host_give(at);
    },
  };
}

function caller(instance) {
  const exports = instance.exports;
  const encoder = new TextEncoder();
  const decoder = new TextDecoder();
  const bytesAt = (at, size) => new Uint8Array(exports.memory.buffer, Number(at), size);
  const numbersAt = (at, count) => new BigUint64Array(exports.memory.buffer, Number(at), count);
  const encoded = (text) => (typeof text === 'string' ? encoder.encode(text) : text);

  // One call with rooms of these sizes.
  function ask(words, pieces, used, rooms) {
    const { take, giveBack } = lender(exports);
    try {
      const lengths = take(8 * pieces.length), bytes = take(used), told = take(24);
      const held = rooms.map(take);
      numbersAt(lengths, pieces.length).set(pieces.map((piece) => BigInt(piece.length)));
      let at = 0;
      for (const piece of pieces) {
        bytesAt(bytes, used).set(piece, at);
        at += piece.length;
      }
      const status = exports.nspk_call(BigInt(words), lengths, BigInt(pieces.length), bytes, BigInt(used),
        ...held.flatMap((room, i) => [room, BigInt(rooms[i])]), told);
      const sizes = [...numbersAt(told, 3)].map(Number);
      const given = held.map((room, i) => bytesAt(room, Math.min(sizes[i], rooms[i])).slice());
      return { status, sizes, given };
    } finally {
      giveBack();
    }
  }

  return (words, files) => {
    const pieces = words.map(encoded);
    for (const [name, text] of files) pieces.push(encoded(name), encoded(text));
    const used = pieces.reduce((sum, piece) => sum + piece.length, 0);
    let rooms = [FIRST_ROOM, FIRST_ROOM, FIRST_ROOM];
    let got;
    try {
      got = ask(words.length, pieces, used, rooms);
      if (got.sizes.some((size, i) => size > rooms[i])) got = ask(words.length, pieces, used, got.sizes);
    } catch (error) {
      if (!(error instanceof RangeError)) throw error;
      return { status: MEMORY, out: '', err: '', stored: new Uint8Array() };
    }
    const [out, err, stored] = got.given;
    return { status: got.status, out: decoder.decode(out), err: decoder.decode(err), stored };
  };
}

if (typeof module !== 'undefined') module.exports = { caller };
