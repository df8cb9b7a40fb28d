/* A connection of the client: a WebSocket with what was asked on it. stompd.js needs this, which needs stompd_frames.js. */
(() => {
"use strict";

if (!globalThis.StompdFrames) throw new Error("stompd_frames.js has to be loaded before stompd_link.js");
const { connectFrame, numbered, read, refused, written } = StompdFrames;

const NOTHING = () => {};
/* Bytes that may wait in a socket before what is only told is left out. */
const MOST_BUFFERED = 1 << 20;
const isFunction = it => typeof it == "function";
/* A timer. One of more than 24 days, such as `Infinity`, never fires. */
const after = (milliseconds, act) => milliseconds < 2 ** 31 ? setTimeout(act, milliseconds) : undefined;

/* An idle connection is asked for something that changes nothing. */
const PROBE = { destinations: [], make: () => [["BEGIN", { transaction: "probe" }], ["ABORT", { transaction: "probe" }]], resolve: NOTHING, reject: NOTHING };

/* A connection, with what was asked on it and has no answer yet. Answers come in the order of what they answer. */
class Link {
  session = null; isOver = false;
  /* Subscriptions whose end has no receipt yet. */
  ending = [];
  #socket; #timer; #on; #openedAt; #count = 0; #asked = new Map(); #told;
  /* Whether nothing was heard since the last look, and whether an answer was due then. */
  #isQuiet = true; #wasDue = true;
  /* What is probed: it ends this if nothing comes for so long. */
  #probe = null;
  /* `on` is called with what happens: failed, opened, heard, refused, over. */
  constructor(url, options, on) {
    const asked = [url, options.headers, options.protocols];
    this.#on = on;
    if (asked.some(isFunction)) this.#ask(asked, options); else this.#connect(asked, options);
    this.#watch(options.answerTimeout);
  }
  /* Connects with what functions answer. */
  async #ask(asked, options) {
    try {
      const found = await Promise.all(asked.map(async it => isFunction(it) ? it() : it));
      if (!this.isOver) this.#connect(found, options);
    } catch (error) {
      if (this.isOver) return;
      this.#on.failed(error);
      this.end({ reason: String(error?.message ?? error) });
    }
  }
  #connect([url, headers, protocols], { WebSocket, clientId }) {
    const frame = connectFrame(clientId, headers), socket = this.#socket = new WebSocket(url, ["v12.stomp", ...protocols]);
    socket.binaryType = "arraybuffer";
    socket.onopen = () => this.write([frame]);
    socket.onmessage = ({ data }) => this.#hear(data);
    // A close may follow or not, as in Node 20, where nobody listens.
    socket.onerror = () => this.end({ code: 1006 });
    socket.onclose = ({ code }) => this.end({ code });
  }
  lasted() { return this.#openedAt === undefined ? 0 : performance.now() - this.#openedAt; }
  forget(subscription) { this.ending = this.ending.filter(it => it !== subscription); }
  /* If one can't be written, none is sent. */
  write(frames) { for (const text of frames.map(written)) this.#socket.send(text); }
  /* Sends what has no receipt, unless too much waits already. Whether it did. */
  tell(frame) {
    if (this.#socket.bufferedAmount > MOST_BUFFERED) return false;
    this.write([frame]);
    // What is told in a row has no answer unless it is refused.
    if (!this.#told) this.#asked.set(`told ${++this.#count}`, this.#told = { isTold: true, reject: NOTHING, destinations: [] });
    if (!this.#told.destinations.includes(frame[1].destination)) this.#told.destinations.push(frame[1].destination);
    return true;
  }
  /* Sends the frames of a post, whose last one asks for a receipt. */
  post(post) {
    const frames = post.make(), [command, headers, body] = frames.at(-1), receipt = numbered(++this.#count);
    this.write([...frames.slice(0, -1), [command, { ...headers, receipt }, body]]);
    this.#asked.set(receipt, post);
    for (const [, , , message] of frames) message?.settle();
    this.#told = null;
  }
  /* Is over, by itself or since it is left. An engine may wait long for the end of a dead socket, so nobody waits for it here. */
  end(detail) {
    if (this.isOver) return;
    Object.assign(this, { isOver: true, session: null });
    for (const it of [this.#timer, this.#probe?.timer]) clearTimeout(it);
    if (this.#socket) Object.assign(this.#socket, { onopen: NOTHING, onmessage: NOTHING, onclose: NOTHING }).close();
    const posts = [...this.#asked.values()];
    this.#asked.clear();
    this.#on.over(posts, detail);
  }

  #hear(data) {
    this.#isQuiet = false;
    if (this.#probe) this.#awaitProbe();
    let frame;
    try { frame = read(data); } catch { return this.end({ reason: "what came is no STOMP" }); }
    const { command, headers } = frame;
    if (command == "MESSAGE") this.#on.heard(frame);
    else if (command == "RECEIPT") this.#accept(headers["receipt-id"]);
    else if (command == "ERROR") this.#refuse(headers["receipt-id"], headers.message);
    else if (command == "CONNECTED") {
      this.session = headers.session;
      this.#openedAt = performance.now();
      this.#on.opened();
    }
  }
  #accept(receipt) {
    const post = this.#asked.get(receipt);
    if (!post) return;                         // that of a DISCONNECT
    // What was told before it was accepted too.
    for (const [key, it] of this.#asked) { if (it === post) break; if (it.isTold) this.#asked.delete(key); }
    this.#asked.delete(receipt);
    post.resolve();
  }
  /* The session is over with a refusal, and what was asked after it is not carried out. An ERROR that names no receipt is of a frame without one,
     or of one that could not be read: the first that has no answer yet. */
  #refuse(receipt, message) {
    this.session = null;
    const asked = [...this.#asked], place = receipt === undefined ? 0 : asked.findIndex(([key]) => key == receipt);
    const posts = asked.map(([, post]) => post);
    this.#asked = new Map(place < 0 ? asked : asked.slice(0, place));
    this.#on.refused(posts[place], place < 0 ? [] : posts.slice(place + 1), refused(message));
  }
  /* A connection that was quiet for a whole period is asked, and one that owed an answer all the while is dead. */
  #watch(period) { this.#timer = after(period, () => this.#look(period)); }
  #look(period) {
    if (this.#isQuiet && this.#wasDue) return this.end({ reason: `no answer within ${period} ms` });
    if (this.#isQuiet && !this.#isDue()) this.post(PROBE);
    this.#isQuiet = true;
    this.#wasDue = this.#isDue();
    this.#watch(period);
  }
  #isDue() { return !this.session || [...this.#asked.values()].some(it => !it.isTold); }
  /* Asks now, as after a sleep. An answer that is due may wait for the broker's disk, and so may that to this. */
  probe({ probeTimeout, answerTimeout }) {
    if (this.#probe) return;
    this.#probe = { limit: this.#isDue() ? answerTimeout : probeTimeout };
    this.post({ ...PROBE, resolve: () => { clearTimeout(this.#probe.timer); this.#probe = null; } });
    this.#awaitProbe();
  }
  #awaitProbe() {
    const { timer, limit } = this.#probe, due = performance.now() + limit;
    clearTimeout(timer);
    // A script that ran late hasn't read what came meanwhile.
    const isOver = () => { if (performance.now() > due + limit / 2) this.#awaitProbe(); else this.end({ reason: `no answer within ${limit} ms` }); };
    this.#probe.timer = after(limit, isOver);
  }
}

globalThis.StompdLink = { Link, after, isFunction };
})();
