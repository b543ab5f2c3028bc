"use strict";
// Calls the module of WebAssembly that reads captures. crates/dbus_page says what each call promises.

const WHOLE = 0, PARTIAL = 1, REFUSED = 2, NO_ROOM = 3;
const LITTLE = 108, BIG = 66, PAGE_BYTES = 65536;
// What `--resync` goes by: how many bytes are searched behind a refused message, and looked at for each.
const WINDOW = 1_048_576, EFFORT = 16;
const MOST_FIELDS = 2 ** 26, MOST_BYTES = 2 ** 27, FRONT_BYTES = 16;
// The structs of calls, one after another, and a line's texts; and the bytes of a `PagePart`.
const UNPACKED = 0, NEXT = 32, PLACE = 48, COUNT = 80, BESIDE = 96, EVENT = 152, SEARCH = 224, TEXTS = 240;
const TOLD_BYTES = 1024, PART_BYTES = 32, ITEM_BYTES = 32;
// Words of a `PagePart`.
const START = 0, PACKET = 1, TIME = 2, HAS_TIME = 3;
// The bytes of a number by its type; and the header fields that have names have these codes.
const WIDTHS = { y: 1, b: 4, n: 2, q: 2, i: 4, u: 4, x: 8, t: 8, d: 8, h: 4 };
const FIRST_FIELD = 1, LAST_FIELD = 9, CODE_ITEM = 1, VALUE_ITEM = 3;
const ENCODER = new TextEncoder(), MOST_ARGUMENTS = 8192;

// One input, in the memory of an instance of its own. A file of so many bytes is put at `text`, and then opened.
class Reader {
  constructor(compiled, size) {
    // What one read of 65,536 bytes gives of a packet is a part. A packet takes 17 bytes of the file at least.
    this.partsRoom = Math.floor(size / 17) + Math.ceil(size / PAGE_BYTES) + 2;
    const instance = new WebAssembly.Instance(compiled);
    this.calls = instance.exports;
    this.memory = instance.exports.memory;
    // The module's own data and stack end here, and it never asks for more.
    this.told = this.memory.buffer.byteLength;
    this.parts = this.told + TOLD_BYTES;
    this.data = this.parts + this.partsRoom * PART_BYTES;
    this.text = this.data + aligned(size + 1);
    this.size = size;
    this.reach(this.text + Math.max(size, PAGE_BYTES));
  }

  // Reads the file behind the handshake of a side of a connection, if there is one. Whether that is not at fault.
  open() {
    const start = this.text, file = this.bytes.subarray(start, start + this.size), skipped = handshakeLength(file);
    this.side = skipped === 0 ? "" : file[0] === 0 ? "client" : "server";
    this.handshake = charactersOf(file.subarray(0, skipped)).replace("\0", "");
    this.skipped = skipped;
    if (skipped !== null) {
      this.unpack(start + skipped, this.size - skipped);
    }
    return skipped !== null;
  }

  // Lets the memory reach so far.
  reach(end) {
    const pages = Math.max(0, Math.ceil((end - this.memory.buffer.byteLength) / PAGE_BYTES));
    try {
      this.memory.grow(BigInt(pages));
    } catch {
      // Older engines take a plain number.
      this.memory.grow(pages);
    }
    this.bytes = new Uint8Array(this.memory.buffer);
    this.view = new DataView(this.memory.buffer);
  }

  // Places as the module takes them.
  toldAt = (place) => BigInt(this.told + place);
  input = (offset, length) => slice(this.data + offset, length);
  number = (place) => Number(this.view.getBigUint64(this.told + place, true));

  // Finds the messages' bytes, which stay in a file without packets. Texts come behind them, or else over the file.
  unpack(start, length) {
    const few = Math.min(length, PAGE_BYTES);
    // A file of packets has more than their bytes.
    this.isRaw = this.unpacked(start, few) === few;
    if (this.isRaw) {
      Object.assign(this, { data: start, length, partCount: 0, text: aligned(start + length) });
      this.reach(this.text + PAGE_BYTES);
    } else {
      this.length = this.unpacked(start, length);
    }
  }

  unpacked(start, length) {
    const room = [...slice(this.data, length + 1), ...slice(this.parts, this.partsRoom), this.toldAt(UNPACKED)];
    if (this.calls.dbus_page_unpack(...slice(start, length), ...room) !== WHOLE) {
      throw new Error("the file has more parts than there is room for");
    }
    this.partCount = this.number(UNPACKED + 8);
    // The fault of a pcap or pcapng file, by its place in it.
    this.fileFault = this.number(UNPACKED + 24) ? this.number(UNPACKED + 16) : null;
    return this.number(UNPACKED);
  }

  partWord = (part, word) => this.view.getBigUint64(this.parts + part * PART_BYTES + word * 8, true);
  partEnd = (part) => (part + 1 < this.partCount ? Number(this.partWord(part + 1, START)) : this.length);
  partAt = (offset) => leastOf(0, this.partCount - 1, (it) => this.partEnd(it) > offset);

  // The time of the packet that the byte at the offset is of, in nanoseconds, or null.
  timeAt(offset) {
    const part = this.partAt(offset);
    return this.partCount && this.partWord(part, HAS_TIME) ? this.partWord(part, TIME) : null;
  }

  // The next packet after that by which the message at the offset is refused, or null.
  nextPacket(offset) {
    const most = this.partCount - 1, part = this.partAt(this.frontEnd(offset) - 1), packet = this.partWord(part, PACKET);
    const end = this.partEnd(leastOf(part, most, (it) => it < most && this.partWord(it + 1, PACKET) > packet));
    return end < this.length ? end : null;
  }

  // What begins at the offset of what ends there: a message of this length; or a fault, or the end, at a place.
  next(offset, end = this.length) {
    const answer = this.calls.dbus_page_next(BigInt(this.data + offset), BigInt(end - offset), this.toldAt(NEXT));
    return { answer, length: this.number(NEXT), at: this.number(NEXT + 8) };
  }

  // Where the fewest bytes from the offset on end that are refused; or all, if none are.
  frontEnd = (offset) => leastOf(offset, this.length, (end) => this.next(offset, end).answer === REFUSED);

  // Whether the byte may be a message's first one.
  isOrder = (offset) => [LITTLE, BIG].includes(this.bytes[this.data + offset]);

  // The size that 16 bytes state, whatever else they say, or 0.
  stated(offset) {
    if (offset + FRONT_BYTES > this.length || !this.isOrder(offset)) {
      return 0;
    }
    const start = this.data + offset, isLittle = this.bytes[start] === LITTLE;
    const [fields, body] = [12, 4].map((it) => this.view.getUint32(start + it, isLittle));
    const size = FRONT_BYTES + Math.ceil(fields / 8) * 8 + body;
    return fields > MOST_FIELDS || size > MOST_BYTES ? 0 : size;
  }

  // Where messages begin again behind a refused one, or null, as `--resync` does: in a capture at the next packet.
  goOn(offset, answer, at) {
    if (!this.isRaw) {
      return answer === REFUSED ? this.nextPacket(offset) : null;
    }
    const stated = this.stated(offset), behind = offset + stated, isThere = stated > 0 && behind <= this.length;
    const most = Math.max(0, EFFORT * WINDOW - Math.max(0, this.looked + at - EFFORT * offset));
    const { found, looked } = this.seek(offset, isThere && stated <= WINDOW ? behind : null, most);
    this.looked = Math.min(this.looked + at + looked, Math.max(this.looked, EFFORT * (offset + WINDOW)));
    return found ?? (stated > WINDOW && isThere ? behind : null);
  }

  // The same within an effort: where the size leads, if messages go on there, or else at the first one.
  seek(offset, behind, most) {
    const end = Math.min(this.length, offset + WINDOW), isCut = end === offset + WINDOW;
    let looked = 0;
    if (behind !== null) {
      const { answer, length } = this.next(behind, end), left = end - behind;
      looked = length <= left ? length : 0;
      if (looked > most) {
        return { found: null, looked: most };
      }
      const wantsMore = left > 0 && this.isOrder(behind) && (left < FRONT_BYTES || this.stated(behind) > left);
      if (answer === WHOLE || (isCut ? wantsMore : left === 0)) {
        return { found: behind, looked };
      }
    }
    const given = [...this.input(offset, end - offset), BigInt(most - looked), this.toldAt(SEARCH)];
    const found = this.calls.dbus_page_search(...given) === WHOLE ? offset + this.number(SEARCH) : null;
    return { found, looked: looked + this.number(SEARCH + 8) };
  }

  // Writes numbers at a place, one after another.
  tell = (place, all) => all.forEach((it, at) => this.view.setBigUint64(this.told + place + 8 * at, BigInt(it), true));

  tellPlace(number, offset, length) {
    const time = this.timeAt(offset + length - 1);
    this.tell(PLACE, [number, offset, time ?? 0, time === null ? 0 : 1]);
  }

  // The message at the offset as JSON.
  json(number, offset, length) {
    this.tellPlace(number, offset, length);
    return this.written((...room) => this.calls.dbus_page_json(...this.input(offset, length), this.toldAt(PLACE), ...room));
  }

  // The line of `dbus-wire list`, of at most so many cells, or 0. `beside` is what `Rows` has of the message.
  line(number, offset, length, beside, width) {
    const texts = [beside.call?.member, beside.sender, beside.destination].map((it) => ENCODER.encode(it ?? ""));
    const time = beside.call?.time ?? null;
    this.tellPlace(number, offset, length);
    this.tell(BESIDE, [beside.call?.number ?? 0, time ?? 0, time === null ? 0 : 1, ...texts.map((it) => it.length)]);
    this.view.setUint16(this.told + BESIDE + 48, width, true);
    const all = texts.flatMap((it) => [...it]);
    this.bytes.set(all, this.told + TEXTS);
    const given = [...this.input(offset, length), this.toldAt(PLACE), this.toldAt(BESIDE), ...slice(this.told + TEXTS, all.length)];
    return this.written((...room) => this.calls.dbus_page_line(...given, ...room));
  }

  // What the message tells of calls and of names.
  event(offset, length) {
    const given = [...this.input(offset, length), this.toldAt(EVENT)];
    const text = charactersOf(this.writtenBytes((...room) => this.calls.dbus_page_event(...given, ...room)));
    const word = (at) => this.view.getUint32(this.told + EVENT + 4 * at, true);
    let end = 0;
    const [caller, sender, name, unique, forCaller, forOwner, byName] = [4, 6, 8, 10, 12, 14, 16].map((it) => {
      const start = end;
      end += word(it);
      return decoded(text.slice(start, end));
    });
    const [said, serial, says] = [0, 1, 2].map(word);
    return { event: said, serial, says, caller, waiter: caller, sender, name, unique, forCaller, forOwner, byName };
  }

  // Where the parts of the message stand: items of its header fields, and of its body's values.
  items(offset, length) {
    for (let room = 64; ; room = this.number(COUNT + 8)) {
      this.reach(this.text + room * ITEM_BYTES);
      const given = [...this.input(offset, length), ...slice(this.text, room), this.toldAt(COUNT)];
      if (this.calls.dbus_page_items(...given) !== NO_ROOM) {
        const all = Array.from({ length: this.number(COUNT + 8) }, this.item), fields = this.number(COUNT);
        return { fields: all.slice(0, fields), body: all.slice(fields) };
      }
    }
  }

  item = (_, at) => {
    const start = this.text + at * ITEM_BYTES, word = (it) => Number(this.view.getBigUint64(start + 8 * it, true));
    const letter = (it) => String.fromCharCode(this.view.getUint32(start + it, true));
    return { number: word(0), offset: word(1), length: word(2), code: letter(24), element: letter(28) };
  };

  // The name of the reason why no message begins at the offset.
  reason = (offset) =>
    this.written((...room) => this.calls.dbus_page_reason(...this.input(offset, this.length - offset), ...room));

  // Why no message begins at the offset: the lines of `dbus-wire check --explain`, by the bytes that show it.
  explain(number, offset) {
    const given = [...this.input(offset, this.frontEnd(offset) - offset), BigInt(number), BigInt(offset)];
    return this.written((...room) => this.calls.dbus_page_explain(...given, ...room));
  }

  // The text that a call writes, with as much room as it takes.
  written = (call) => decoded(charactersOf(this.writtenBytes(call)));

  writtenBytes(call) {
    for (;;) {
      const room = this.memory.buffer.byteLength - this.text;
      const answer = call(...slice(this.text, room), this.toldAt(COUNT));
      if (answer !== NO_ROOM) {
        return this.bytes.subarray(this.text, this.text + this.number(COUNT));
      }
      this.reach(this.text + 2 * room);
    }
  }

  // A copy of bytes of the input.
  part = (start, end) => this.bytes.slice(this.data + start, this.data + Math.min(end, this.length));
}

// A character for each byte. What a TextDecoder gives is not of the engine's heap, and browsers let it go late.
function charactersOf(bytes) {
  let text = "";
  for (let at = 0; at < bytes.length; at += MOST_ARGUMENTS) {
    text += String.fromCharCode.apply(null, bytes.subarray(at, at + MOST_ARGUMENTS));
  }
  return text;
}

// The text that bytes of UTF-8 say, of such characters.
const decoded = (text) => (/[^\0-\x7f]/.test(text) ? decodeURIComponent(escape(text)) : text);

// The least number from `low` on that passes a test, as all after it do; or `high`.
function leastOf(low, high, passes) {
  while (low < high) {
    const middle = Math.floor((low + high) / 2);
    [low, high] = passes(middle) ? [low, middle] : [middle + 1, high];
  }
  return low;
}

// Where the values stand that JSON has of these items: the first byte of each, and the one behind it.
const leavesOf = (items) => items.flatMap(({ offset, length, code, element }) => {
  const width = WIDTHS[element];
  if (code !== "a" || element === "y") {
    return "({".includes(code) ? [] : [[offset, offset + length]];
  }
  const start = (at) => offset + at * width;
  return width ? Array.from({ length: length / width }, (_, at) => [start(at), start(at + 1)]) : [];
});

// The same of all values that the line of JSON of a message has, in its order; null of those that its bytes do not say.
function leavesOfLine({ fields, body }, hasTime) {
  const known = [], others = [], isKnown = ({ number }) => number >= FIRST_FIELD && number <= LAST_FIELD;
  for (let at = 0; at < fields.length; at += fields[at].number + 1) {
    const parts = fields.slice(at, at + fields[at].number + 1);
    if (isKnown(parts[CODE_ITEM])) {
      known.push(...leavesOf(parts.slice(VALUE_ITEM)));
    } else {
      others.push({ leaves: leavesOf(parts), known: known.length });
    }
  }
  const placed = others.flatMap((it) => (it.known < known.length ? [...it.leaves, null] : it.leaves));
  const first = [...Array(hasTime ? 4 : 3).fill(null), [0, 1], [1, 2], [2, 3], [8, 12]];
  return [...first, ...known, ...placed, ...leavesOf(body)];
}

// Where the module's structs may begin from there on.
const aligned = (address) => Math.ceil(address / 8) * 8;

// A slice as the module takes it.
const slice = (address, length) => [BigInt(address), BigInt(length)];

// Each message of the input, and each place at which there is none, with what is passed over there.
function* entries(reader) {
  // How many bytes were looked at to go on.
  reader.looked = 0;
  for (let offset = 0, end = 0; end !== null && offset < reader.length; offset = end) {
    const { answer, length, at } = reader.next(offset);
    end = answer === WHOLE ? offset + length : reader.goOn(offset, answer, at);
    yield { offset, length: (end ?? reader.length) - offset, isWhole: answer === WHOLE, isPartial: answer === PARTIAL };
  }
}
