// What is kept of an input: a row of numbers for each message, which calls wait, and who has which name. The module
// says what each message tells of it; here are the tables, by the rules of the crates dbus_calls and dbus_names.

const CALL = 1, CALL_WITHOUT_REPLY = 2, REPLY = 3, DEPARTURE = 4;
const OWNED = 1, FREE = 2, LOST = 3, ASKED_FOR_CALLER = 4, ASKED_BY_NAME = 6;
const BUS = "org.freedesktop.DBus", ERROR_TYPE = 3;
// What a row is, beside the number of a message's event.
const WHOLE_ROW = 6, ERROR_ROW = 7, REFUSED_ROW = 8, PARTIAL_ROW = 9;
// What either side of a connection sent has one of these before its numbers.
const ARROWS = ["->", "<-"];
const ROWS_AT_ONCE = 65_536;
const COLUMNS_OF_ROWS = { offsets: Float64Array, lengths: Uint32Array, kinds: Uint8Array, pairs: Uint32Array };

// Whether a message of the sender may answer a call to the destination, which is read only if that matters.
function mayAnswer(destinationOf, sender) {
  const destination = !sender || sender === BUS ? null : destinationOf();
  return !destination || sender === destination || !(destination.startsWith(":") || destination === BUS);
}

// The calls that wait for a reply, at most one of each waiter, which is the caller, and serial.
class OpenCalls {
  callers = new Map();

  // The call that the event of a message answers, or null. A call that it is opens, if there is one to keep.
  take(event, call) {
    const { waiter, serial } = event, calls = this.callers.get(waiter);
    if (event.event === CALL && call) {
      this.callers.set(waiter, (calls ?? new Map()).set(serial, call));
    } else if (event.event === CALL || event.event === CALL_WITHOUT_REPLY) {
      calls?.delete(serial);
    } else if (event.event === DEPARTURE) {
      this.callers.delete(waiter);
    } else if (event.event === REPLY && calls?.has(serial) && mayAnswer(calls.get(serial).destination, event.sender)) {
      const answered = calls.get(serial);
      calls.delete(serial);
      return answered;
    }
    return null;
  }
}

// Who has which name, and by which name each connection is known, from which row on.
class Names {
  calls = new OpenCalls();
  owners = new Map();
  first = new Map();
  known = new Map();

  take(event, row) {
    const { says, name, unique } = event;
    const asks = says >= ASKED_FOR_CALLER, destination = asks && (() => (says === ASKED_BY_NAME ? name : BUS));
    const asked = this.calls.take(event, asks ? { says, name, destination } : null);
    if (event.event === DEPARTURE) {
      this.first.delete(event.caller);
      this.note(event.caller, row);
    }
    if (asked) {
      this.own(asked.name, [event.forCaller, event.forOwner, event.byName][asked.says - ASKED_FOR_CALLER], row);
    } else if (says === OWNED) {
      this.own(name, unique, row);
    } else if (says === FREE || (says === LOST && this.owners.get(name) === unique)) {
      const owner = this.owners.get(name);
      this.owners.delete(name);
      this.note(owner, row);
    }
  }

  // The connection has the name from now on, if there is one.
  own(name, unique, row) {
    if (unique) {
      if (this.of(unique) === null) {
        this.first.set(unique, name);
      }
      const owner = this.owners.get(name);
      this.owners.set(name, unique);
      this.note(owner, row);
      this.note(unique, row);
    }
  }

  // The name by which the connection is known: its first one, if it still has it; or null.
  of(unique) {
    const name = this.first.get(unique);
    return name !== undefined && this.owners.get(name) === unique ? name : null;
  }

  note(unique, row) {
    const known = this.known.get(unique) ?? [], name = this.of(unique);
    if ((known.at(-1)?.name ?? null) !== name) {
      known.push({ row, name });
      this.known.set(unique, known);
    }
  }

  // The same at a row.
  at = (unique, row) => this.known.get(unique)?.findLast((it) => it.row <= row)?.name ?? null;
}

// A row for each entry of an input, or of two, which are the sides of a connection, the client's first: where and what
// it is, and the row of its call or its reply, counted from 1, or 0.
class Rows {
  constructor(readers) {
    this.readers = readers;
    this.count = this.bad = this.passed = 0;
    // How many rows the first side has.
    this.first = Infinity;
    this.calls = new OpenCalls();
    this.names = new Names();
    // A column grows in its place. A message has 16 bytes at least, and what is passed over stands between two.
    const most = readers.reduce((all, it) => all + Math.ceil(it.size / 8) + ROWS_AT_ONCE, 0);
    for (const [name, Column] of Object.entries(COLUMNS_OF_ROWS)) {
      this[name] = new Column(new ArrayBuffer(0, { maxByteLength: most * Column.BYTES_PER_ELEMENT }));
    }
  }

  makeRoom(rows) {
    for (const { buffer, BYTES_PER_ELEMENT } of Object.keys(COLUMNS_OF_ROWS).map((it) => this[it])) {
      buffer.resize(Math.min(buffer.maxByteLength, rows * BYTES_PER_ELEMENT));
    }
  }

  // Adds a row for each entry, of one side and then of the other, and yields it.
  *adding() {
    for (const reader of this.readers) {
      this.first = reader === this.readers[1] ? this.count : Infinity;
      for (const entry of entries(reader)) {
        entry.reader = reader;
        entry.row = this.add(entry);
        yield entry;
      }
    }
  }

  add({ offset, length, isWhole, isPartial }) {
    const row = this.count;
    if (row === this.offsets.length) {
      this.makeRoom(row + ROWS_AT_ONCE);
    }
    this.count += 1;
    this.offsets[row] = offset;
    this.lengths[row] = length;
    this.bad += isWhole ? 0 : 1;
    this.passed += isWhole ? 0 : length;
    this.kinds[row] = isWhole ? WHOLE_ROW : isPartial ? PARTIAL_ROW : REFUSED_ROW;
    return row;
  }

  // The rows in the order in which to learn of them: the client's again at last, since it answers the server's calls.
  *learning() {
    yield* Array(this.count).keys();
    yield* Array(this.readers[1] ? this.first : 0).keys();
  }

  // Learns of calls and names from a row. All before were learned from.
  learn = (row) => {
    if (this.kinds[row] >= REFUSED_ROW) {
      return;
    }
    const event = this.readerOf(row).event(this.offsets[row], this.lengths[row]), isReply = event.event === REPLY;
    if (this.readers[1]) {
      // The client need not say who it is.
      event.waiter = isReply === (row < this.first) ? event.caller : ARROWS[0];
    }
    this.kinds[row] = isReply && this.typeOf(row) === ERROR_TYPE ? ERROR_ROW : event.event;
    const kept = event.event === CALL ? { row, destination: () => this.said(row).destination } : null;
    const call = this.calls.take(event, kept);
    if (call) {
      this.pairs[row] = call.row + 1;
      this.pairs[call.row] = row + 1;
    }
    this.names.take(event, row);
  };

  // The row that it answers, counted from 1, or 0.
  answered = (row) => (this.kinds[row] === CALL ? 0 : this.pairs[row]);

  // The rows in the order of the list: what the server sent is as early as may be, behind what it answers.
  ordered() {
    if (!this.readers[1]) {
      return Array(this.count).keys();
    }
    let behind = 0;
    const place = (row) => (row < this.first ? row + 1 : (behind = Math.max(behind, this.answered(row))));
    const rows = [...Array(this.count).keys()], places = rows.map(place);
    return rows.sort((a, b) => places[a] - places[b] || a - b);
  }

  readerOf = (row) => this.readers[row < this.first ? 0 : 1];

  // The second byte of a message is its type.
  typeOf(row) {
    const reader = this.readerOf(row);
    return reader.bytes[reader.data + this.offsets[row] + 1];
  }

  at(row) {
    const kind = this.kinds[row], offset = this.offsets[row], reader = this.readerOf(row);
    const side = row < this.first ? 0 : 1;
    const number = row + 1 - (side && this.first), label = this.readers[1] ? `${ARROWS[side]} ${number}` : number;
    return {
      index: row, number, label, reader, offset, length: this.lengths[row], pair: this.pairs[row] - 1,
      type: this.typeOf(row), isCall: kind === CALL, isUnwanted: kind === CALL_WITHOUT_REPLY,
      isWhole: kind < REFUSED_ROW, isPartial: kind === PARTIAL_ROW, isError: kind === ERROR_ROW,
    };
  }

  json(row) {
    const { reader, number, offset, length } = this.at(row);
    return reader.json(number, offset, length);
  }

  said = (row) => JSON.parse(this.json(row));

  // When it was captured, in nanoseconds, or null.
  time(row) {
    const { reader, offset, length } = this.at(row);
    return reader.timeAt(offset + length - 1);
  }

  // The line of `list` of a message, of at most so many cells, or 0. `said` is its JSON.
  line(row, said, width) {
    const { reader, number, offset, length } = this.at(row), call = this.answered(row) - 1;
    const [sender, destination] = [said.sender, said.destination].map((it) => this.names.at(it, row));
    const tell = () => ({ number: this.at(call).number, time: this.time(call), member: this.said(call).member ?? "-" });
    return reader.line(number, offset, length, { call: call < 0 ? null : tell(), sender, destination }, width);
  }
}
