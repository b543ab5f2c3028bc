// The handshake at the start of what one side of a connection sent. docs/AUTHENTICATION.md has its lines.

const MOST_LINES = 1024, MOST_LINE_BYTES = 16384, LF = 10;
const CLIENT_LINE = /^(AUTH( +[^ ]+( +([0-9A-Fa-f]{2})+)?)? *|CANCEL *|BEGIN *|DATA( +([0-9A-Fa-f]{2})+)? *|ERROR( .*)?|NEGOTIATE_UNIX_FD *)$/s;
const SERVER_LINE = /^(REJECTED( .*)?|OK +[0-9A-Fa-f]{32} *|DATA( +([0-9A-Fa-f]{2})+)? *|ERROR( .*)?|AGREE_UNIX_FD *)$/s;
// No message and no captured file begins so.
const FIRST_BYTES = "\0ADEOR";

// The bytes of the line that begins at a place, with its CR LF.
function lineAt(bytes, start) {
  const end = bytes.subarray(start, start + MOST_LINE_BYTES).indexOf(LF) + 1;
  const line = String.fromCharCode(...bytes.subarray(start, start + end));
  // The bytes of a line are all but NUL, CR and LF.
  // eslint-disable-next-line no-control-regex
  return /^[\x01-\x09\x0b\x0c\x0e-\x7f]*\r\n$/.test(line) ? line : null;
}

// How many bytes the handshake has at the start of an input: 0 if it begins as messages or a captured file do, or null if it is at fault.
function handshakeLength(bytes) {
  if (bytes.length === 0 || !FIRST_BYTES.includes(String.fromCharCode(bytes[0]))) {
    return 0;
  }
  const isClient = bytes[0] === 0;
  let start = isClient ? 1 : 0, isAccepted = false;
  for (let count = 0; count < MOST_LINES; count += 1) {
    const line = lineAt(bytes, start);
    const said = line?.slice(0, -2);
    if (line === null || !(isClient ? CLIENT_LINE : SERVER_LINE).test(said)) {
      return null;
    }
    start += line.length;
    isAccepted ||= !isClient && said.startsWith("OK");
    const goesOn = start < bytes.length && !"lB".includes(String.fromCharCode(bytes[start]));
    if (isClient ? /^BEGIN *$/.test(said) : isAccepted && !goesOn) {
      return start;
    }
  }
  return null;
}
