// Match rules, read from their text and asked of the line of JSON of a message. docs/MATCH-RULES.md says what they mean. No name has an owner here: `sender` is
// compared with the sender alone.

// In the order of their codes, from 1 on.
const TYPES = ["method_call", "method_return", "error", "signal"];
const MOST_NAME_CHARACTERS = 255;

const isName = (pattern) => (text) => text.length <= MOST_NAME_CHARACTERS && pattern.test(text);
const isOneOf = (texts) => (text) => texts.includes(text);
const isPath = (text) => /^(\/|(\/[A-Za-z0-9_]+)+)$/.test(text);
const isBusName = isName(/^(:[A-Za-z0-9_-]+(\.[A-Za-z0-9_-]+)+|[A-Za-z_-][A-Za-z0-9_-]*(\.[A-Za-z_-][A-Za-z0-9_-]*)+)$/);
const isInterface = isName(/^[A-Za-z_][A-Za-z0-9_]*(\.[A-Za-z_][A-Za-z0-9_]*)+$/);
const isMember = isName(/^[A-Za-z_][A-Za-z0-9_]*$/);

const begins = (text, start, end) => text === start || text.startsWith(start.endsWith(end) ? start : start + end);
const isStart = (start, text) => start.endsWith("/") && text.startsWith(start);
const textAt = (said, at, types) => (types.includes(said.types[at]) ? said.body[at] : undefined);

// Each key: which values it takes, and when it holds of a message.
const KEYS = {
  type: [isOneOf(TYPES), (said, value) => said.type === value],
  sender: [isBusName, (said, value) => said.sender === value],
  interface: [isInterface, (said, value) => said.interface === value],
  member: [isMember, (said, value) => said.member === value],
  path: [isPath, (said, value) => said.path === value],
  path_namespace: [isPath, (said, value) => said.path !== undefined && begins(said.path, value, "/")],
  destination: [isBusName, (said, value) => said.destination === value],
  arg0namespace: [() => true, (said, value) => begins(textAt(said, 0, ["s"]) ?? "", value, ".") && said.types[0] === "s"],
  eavesdrop: [isOneOf(["true", "false"]), () => true],
};

function keyOf(name) {
  if (Object.hasOwn(KEYS, name)) {
    return KEYS[name];
  }
  const [, digits, path] = name.match(/^arg(0|[1-9][0-9]?)(path)?$/) ?? [];
  const at = Number(digits);
  if (digits === undefined || at > 63) {
    return null;
  }
  const types = path ? ["s", "o"] : ["s"], isWithin = (text, value) => isStart(text, value) || isStart(value, text);
  const holds = (text, value) => text === value || (path !== undefined && text !== undefined && isWithin(text, value));
  return [() => true, (said, value) => holds(textAt(said, at, types), value)];
}

// Why a text is no rule: the reason, and its place in bytes.
class RuleFault extends Error {
  constructor(text, at, reason) {
    super(`refused ${new TextEncoder().encode(text.slice(0, at)).length} ${reason}`);
  }
}

// The value that begins at a place, and where it ends.
function valueAt(text, start) {
  const [written] = text.slice(start).match(/^('[^']*'|\\'|[^,'])*/), end = start + written.length;
  if (text[end] === "'") {
    throw new RuleFault(text, end, "OpenQuote");
  }
  return [written.replace(/'([^']*)'|\\'/g, (_, quoted) => quoted ?? "'"), end];
}

// The pair that begins at a place, after those of these keys; and where it ends.
function pairAt(text, start, names) {
  const end = text.slice(start).search(/[=,]|$/) + start;
  if (text[end] !== "=") {
    throw new RuleFault(text, end, "NoEquals");
  }
  const name = text.slice(start, end), key = keyOf(name);
  const isBoth = ["path", "path_namespace"].every((it) => it === name || names.includes(it));
  const reason = !key ? "KeyName" : names.includes(name) ? "KeyTwice" : isBoth ? "PathAndNamespace" : null;
  if (reason) {
    throw new RuleFault(text, start, reason);
  }
  const [value, after] = valueAt(text, end + 1);
  if (!key[0](value)) {
    throw new RuleFault(text, end + 1, "BadValue");
  }
  // Of a path's prefix and of `eavesdrop` no message need have all bytes.
  const bytes = /^(eavesdrop|arg\d+path)$/.test(name) ? "" : charactersOf(ENCODER.encode(value));
  return [{ name, value, holds: key[1], bytes }, after];
}

// The conditions of a rule's text.
function readRule(text) {
  const nul = text.indexOf("\0");
  if (nul >= 0) {
    throw new RuleFault(text, nul, "Nul");
  }
  const pairs = [];
  for (let at = 0; at < text.length; at += 1) {
    at += text.slice(at).search(/[^ ]|$/);
    if (at < text.length) {
      const [pair, end] = pairAt(text, at, pairs.map((it) => it.name));
      pairs.push(pair);
      at = end;
    }
  }
  return pairs;
}

// A code for each value's type, of a signature: that of a basic type is its own.
function firstCodes(signature) {
  const flat = signature.replace(/\([^(){}]*\)|\{[^(){}]*\}/g, "r");
  return flat === signature ? flat.replace(/a+./g, "a") : firstCodes(flat);
}

// Whether the message of a row matches. Only one that has its type and the bytes of its values is parsed.
function matchesRule(pairs, rows, { index, reader, offset, length, type }) {
  const bytes = () => charactersOf(reader.bytes.subarray(reader.data + offset, reader.data + offset + length));
  if (!pairs.every((it) => (it.name === "type" ? TYPES[type - 1] === it.value : bytes().includes(it.bytes)))) {
    return false;
  }
  const said = rows.said(index);
  said.types = firstCodes(said.signature ?? "");
  return pairs.every((it) => it.holds(said, it.value));
}
