/* Frames of STOMP 1.2 as stompd takes them: what it would refuse is refused here, and not written. stompd.js needs this. */
(() => {
"use strict";

/* Headers that only the module sets. */
const OWN_HEADERS = ["content-length", "receipt", "transaction"];
/* The broker's limits (docs/PROTOCOL.md, "Limits"). It answers what passes one with an ERROR, which ends the session, so that is not sent. */
const MOST_HEADERS = 64, MOST_HEAD = 8_192, MOST_BODY = 65_536;
const DESTINATION = /^\/(topic|queue)\/[A-Za-z0-9._\/-]{1,200}$/;
/* Headers that a message does not keep, so they count for no operation. */
const UNKEPT = [...OWN_HEADERS, "destination", "subscription", "message-id", "ack"];

/* Why a promise was rejected, by its kind. A refusal has the broker's code. */
class StompdError extends Error {
  constructor(kind, message, code) { Object.assign(super(message), { name: "StompdError", kind, code }); }
}
const unsent = message => new StompdError("unsent", message);
const refused = message => new StompdError("refused", message, /^E\d+/.exec(message)?.[0]);

const ESCAPES = { "\\": "\\\\", "\r": "\\r", "\n": "\\n", ":": "\\c" }, MEANINGS = { "\\": "\\", r: "\r", n: "\n", c: ":" };
const escaped = text => String(text).replace(/[\\\r\n:]/g, letter => ESCAPES[letter]);
const unescaped = text => text.replace(/\\(.)/g, (_, letter) => MEANINGS[letter]);
const encoder = new TextEncoder(), decoder = new TextDecoder("utf-8", { fatal: true, ignoreBOM: true });
/* A body as it was asked for. Bytes that are not UTF-8 have U+FFFD in a text. */
const lossy = new TextDecoder("utf-8", { ignoreBOM: true });
const textFrom = it => typeof it == "string" ? it : lossy.decode(it);
const bytesFrom = it => typeof it == "string" ? encoder.encode(it) : it;
const sizeOf = it => typeof it == "string" ? encoder.encode(it).length : it.length;
/* Receipts and names of transactions, all as long as each other: a frame that is at a limit stays there. */
const numbered = number => String(number).padStart(12, "0");
/* A body is text or bytes. Bytes are copied, since the frame may have to wait. */
function bodyOf(body) {
  if (body === undefined || body === null) return "";
  if (body instanceof ArrayBuffer) return new Uint8Array(body.slice(0));
  if (ArrayBuffer.isView(body)) return new Uint8Array(body.buffer, body.byteOffset, body.byteLength).slice();
  if (["object", "function", "symbol"].includes(typeof body)) throw unsent(`a body is a text or bytes, and no ${typeof body}: use JSON.stringify`);
  return String(body);
}

/* Headers of the caller, of which those without a value are left out. */
function given(headers) {
  if (typeof headers != "object" || headers === null || Array.isArray(headers)) throw unsent('headers are an object, as { key: "text" }');
  const all = Object.entries(headers).filter(([name, value]) => value != null && !OWN_HEADERS.includes(name));
  const odd = all.find(([, value]) => ["object", "function", "symbol"].includes(typeof value));
  if (odd) throw unsent(`the header ${odd[0]} is a text, and no ${typeof odd[1]}, as { ${odd[0]}: "text" }`);
  return Object.fromEntries(all);
}

/* A SEND, if the broker can take it. `added` are as long as the headers that it gets once it is sent. */
function sendFrame(destination, body, headers, added) {
  const content = bodyOf(body), size = sizeOf(content), counted = size ? { "content-length": size } : {};
  if (size > MOST_BODY) throw refused(`E2 frame too large: a body of ${size} bytes, and ${MOST_BODY} are the most`);
  return checked(["SEND", { ...given(headers), destination: String(destination), ...counted }, content], added);
}

/* A frame, if the broker would not refuse its head with these headers added. */
function checked(frame, added) {
  const [command, headers] = frame, all = { ...headers, ...added }, count = Object.keys(all).length, head = headOf([command, all]);
  if ("" in all) throw refused("E1 malformed frame: a header has no name");
  if (count > MOST_HEADERS) throw refused(`E2 frame too large: ${count} headers, and ${MOST_HEADERS} are the most`);
  // A letter has at most three bytes for each of its places in the text.
  if (3 * head.length > MOST_HEAD && sizeOf(head) > MOST_HEAD) throw refused(`E2 frame too large: ${sizeOf(head)} bytes of command and headers, and ${MOST_HEAD} are the most`);
  if (command == "CONNECT" || DESTINATION.test(all.destination)) return frame;
  const name = JSON.stringify(all.destination.slice(0, 250)), slashed = `/${all.destination}`;
  if (DESTINATION.test(slashed)) throw refused(`E8 bad destination: ${name} has to begin with a slash, as "${slashed}"`);
  throw refused(`E8 bad destination: ${name} is not /topic/ or /queue/, and 1 to 200 letters, digits, points, dashes, underscores and slashes`);
}

/* How many bytes a SEND takes as a member of a transaction (docs/JOURNAL.md, "The record of a command"). */
function operationSize([, headers]) {
  const kept = Object.entries(headers).filter(([name]) => !UNKEPT.includes(name)), own = 11 + headers.destination.length;
  return kept.reduce((sum, [name, value]) => sum + 8 + sizeOf(name) + sizeOf(String(value)), own + (headers["content-length"] ?? 0));
}

/* Only a clientId sets the client-id, so it is known whether there is one. */
const connectFrame = (clientId, headers) => checked(["CONNECT", given({ ...headers, "accept-version": "1.2", "client-id": clientId || null })], {});

/* CONNECT has no escapes. */
const plain = text => { if (/[\r\n]/.test(text)) throw unsent("a clientId and the headers of CONNECT have no end of a line"); return String(text); };

/* The head of a frame, with its empty line. */
function headOf([command, headers]) {
  const spell = command == "CONNECT" ? plain : escaped;
  const head = `${command}\n${Object.entries(headers).map(([name, value]) => `${spell(name)}:${spell(value)}\n`).join("")}\n`;
  if (head.includes("\0")) throw unsent("a header has a NUL, which no frame can carry");
  return head;
}

/* A frame as it stands on the wire: text if its body is one, else bytes. */
function written(frame) {
  const head = headOf(frame), [, , body = ""] = frame;
  if (typeof body == "string") return `${head}${body}\0`;
  const start = encoder.encode(head), whole = new Uint8Array(start.length + body.length + 1);
  for (const [part, place] of [[start, 0], [body, start.length]]) whole.set(part, place);
  return whole;
}

/* The head and the body of what has come. The broker sends a frame as Binary if it is not UTF-8; then its body stays bytes. */
function parted(data) {
  const isText = typeof data == "string", whole = isText ? data : new Uint8Array(data);
  const end = isText ? data.indexOf("\n\n") : whole.findIndex((byte, place) => byte == 10 && whole[place + 1] == 10);
  return [textOf(whole.slice(0, end)), textOf(whole.slice(end + 2, -1))];
}
function textOf(whole) {
  try { return typeof whole == "string" ? whole : decoder.decode(whole); } catch { return whole; }
}

/* Each message of the broker holds one frame. Of a repeated header the first counts. A header may have any name, as `constructor`. */
function read(data) {
  const [head, body] = parted(data), [command, ...lines] = head.split("\n"), headers = Object.create(null);
  const spell = command == "CONNECTED" ? String : unescaped;
  for (const line of lines) headers[spell(line.slice(0, line.indexOf(":")))] ??= spell(line.slice(line.indexOf(":") + 1));
  return { command, headers, body };
}

globalThis.StompdFrames = { StompdError, bytesFrom, checked, connectFrame, given, numbered, operationSize, read, refused, sendFrame, textFrom, unsent, written };
})();
