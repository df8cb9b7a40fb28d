/* A client of STOMP 1.2 over WebSocket for stompd, which comes back by itself. It has no dependencies, and no export, so that a page which was
   opened from a file can load it too, after stompd_frames.js and stompd_link.js: it makes `Stompd`. Modules import stompd.mjs, whose types are in
   stompd.d.mts. */
(() => {
"use strict";

if (!globalThis.StompdLink) throw new Error("stompd_frames.js and stompd_link.js have to be loaded before stompd.js");
const { StompdError, bytesFrom, checked, connectFrame, given, numbered, operationSize, refused, sendFrame, textFrom, unsent } = StompdFrames;
const { Link, after, isFunction } = StompdLink;

const NOTHING = () => {};
/* What each option and call means stands in stompd.d.mts. */
const TIMES = { shortestPause: 500, longestPause: 8_000, answerTimeout: 15_000, probeTimeout: 3_000, waitTimeout: 60_000, nameTimeout: 90_000, closeTimeout: 5_000 };
const DEFAULTS = { ...TIMES, mostWaiting: 10_000, headers: {}, protocols: [], onstate: NOTHING, onfull: NOTHING, onerror: error => console.error(error) };
/* Where a NACK puts what it refuses. */
const DEAD = "/queue/dead";
const NO_WEBSOCKET = "there is no WebSocket: use Node 22, start Node 20 with --experimental-websocket, or give connect that of the package ws";
const NAMELESS = "E13 durable subscription without a clientId", TWICE = "E11 unknown acknowledgement id: the message was acknowledged or refused before";
/* Further limits of the broker (docs/PROTOCOL.md, "Limits"). */
const MOST_SUBSCRIPTIONS = 16, MOST_MEMBERS = 64, MOST_OPERATIONS = 262_144, MODES = ["auto", "client", "client-individual"], BODIES = ["text", "bytes"];
/* A receipt, or the name of a transaction. */
const NUMBER = numbered(0);

/* A promise that nobody has to await: its rejection reaches those who do, and ends no program. */
const leavable = promise => { promise.catch(NOTHING); return promise; };

/* Pauses that double. Each is up to a quarter shorter or longer, so that many clients that were lost together come back one after another. */
class Pauses {
  #next; #options;
  constructor(options) { this.#options = options; this.reset(); }
  reset() { this.#next = this.#options.shortestPause; }
  get shortestNow() { return this.#next; }
  next() {
    const pause = this.#next * (0.75 + Math.random() / 2);
    this.#next = Math.min(2 * this.#next, this.#options.longestPause);
    return pause;
  }
}

/* What came for a subscription. */
class Message {
  #client; #link; #subscription; #body;
  constructor(client, link, subscription, headers, body) {
    Object.assign(this, { headers, body: subscription.body == "bytes" ? bytesFrom(body) : textFrom(body) });
    [this.#client, this.#link, this.#subscription, this.#body] = [client, link, subscription, body];
  }
  get bytes() { return bytesFrom(this.#body); }
  ack() { return this.#client.ask(() => [this.frame("ACK", this.#client)]); }
  nack() { return this.#client.ask(() => [this.frame("NACK", this.#client)], { destinations: [DEAD], makesRoom: true }); }
  /* An acknowledgement belongs to the connection that the message came by, and to its subscription. After these it comes again, or is another's. */
  frame(command, client) {
    if (this.headers.ack === undefined) throw unsent("a message of an auto subscription is not acknowledged");
    if (!client.isOpen(this.#link)) throw unsent("the session that this message came in is over");
    if (this.#subscription.isEnded) throw unsent("the subscription that this message came for has ended");
    if (!this.#subscription.settledBy(this).length) throw refused(TWICE);
    return [command, { id: this.headers.ack }, "", this];
  }
  /* The messages that its acknowledgement would settle. */
  settled() { return this.#subscription.settledBy(this); }
  settle() { this.#subscription.settle(this); }
}

class Subscription {
  /* Contested: its durable name was in use when it was last asked for. */
  isReady = false; isEnded = false; isContested = false;
  /* The timers of messages that are not acknowledged yet. */
  #held = new Map();
  constructor(client, id, headers, heard, { ackWithin, body }) {
    Object.assign(this, { client, id, headers, heard, ackWithin, body });
    this.ready = leavable(new Promise((resolve, reject) => Object.assign(this, { resolve, reject })));
  }
  /* Has a message until it is acknowledged, or for `ackWithin`. */
  hold(message, isLate) { this.#held.set(message, after(this.ackWithin, isLate)); }
  /* Which messages an acknowledgement of this one settles: in the mode `client` earlier ones too, and none if it was settled before. */
  settledBy(message) {
    const held = [...this.#held.keys()], place = held.indexOf(message);
    return held.slice(this.headers.ack == "client" ? 0 : Math.max(place, 0), place + 1);
  }
  settle(message) {
    for (const it of this.settledBy(message)) {
      clearTimeout(this.#held.get(it));
      this.#held.delete(it);
    }
  }
  /* What it held comes again, or is another's. */
  letGo() {
    for (const timer of this.#held.values()) clearTimeout(timer);
    this.#held.clear();
  }
  end() {
    const link = this.client.drop(this);
    if (!link) return Promise.resolve();
    const make = () => {
      if (!this.client.isOpen(link)) throw unsent("its session is over");
      return [["UNSUBSCRIBE", { id: this.id }]];
    };
    // If its session ends first, so does it.
    return leavable(this.client.ask(make, { accepted: () => link.forget(this) }).catch(error => { if (error.kind == "refused") throw error; }));
  }
  get name() { return this.headers["activemq.subscriptionName"]; }
  giveUp() {
    const { id, name } = this;
    if (name === undefined) return leavable(Promise.reject(unsent("only a durable subscription has a name to give up")));
    if (!this.client.isNamed) return leavable(Promise.reject(refused(NAMELESS)));
    const link = this.client.drop(this);
    // Without its connection the id may be another's by then.
    const make = () => [["UNSUBSCRIBE", { ...(link && this.client.isOpen(link) ? { id } : {}), "activemq.subscriptionName": name }]];
    return this.client.ask(make, { accepted: () => link?.forget(this) });
  }
}

/* What a transaction is made of, where it sends to, and whether it acknowledges. */
class Transaction {
  #size = 0; #settled = new Set();
  constructor(client) { Object.assign(this, { client, makers: [], destinations: [], makesRoom: false }); }
  send(destination, body, headers = {}) {
    const frame = sendFrame(destination, body, headers, { transaction: NUMBER });
    this.#add(operationSize(frame), () => frame, frame[1].destination);
  }
  ack(message) { this.#settle("ACK", message); }
  nack(message) { this.#settle("NACK", message, DEAD); }
  #settle(command, message, destination) {
    message.frame(command, this.client);
    if (this.#settled.has(message)) throw refused(TWICE);
    message.settled().forEach(it => this.#settled.add(it));
    this.#add(9, () => message.frame(command, this.client), destination);
    this.makesRoom = true;
  }
  #add(size, make, destination) {
    if (this.makers.length >= MOST_MEMBERS) throw refused(`E17 transaction too large: it has ${MOST_MEMBERS} members, which are the most`);
    this.#size += size;
    if (this.#size > MOST_OPERATIONS) throw refused(`E17 transaction too large: ${this.#size} bytes, and ${MOST_OPERATIONS} are the most`);
    this.makers.push(make);
    if (destination) this.destinations.push(destination);
  }
}

class Client {
  #url; #options; #link; #timer; #pauses; #count = 0; #isWanted = true;
  /* Whether its page was left or is frozen, and what ends the listening for that. */
  #isAway = false; #page = new AbortController(); #clock;
  /* Why the session was refused, whether by what is not asked again, or not soon, and when the first was so last. */
  #refusal; #isSettled; #rests; #settledAt = -Infinity;
  /* The pauses of asking for durable names that are in use, with the timer of one that lasts. */
  #names; #nameTimer;
  /* Where the broker had no room: the pauses of sending there, with the timer of one that lasts. If several last, all sending rests. */
  #full = new Map(); #restsWholly = false;
  /* How many promises have no answer, and what waits for them to be fewer. */
  #underWay = 0; #drains = [];
  #subscriptions = new Map(); #waiting = new Set(); #closing = [];
  /* connecting, open, lost, refused or closed. */
  state = "connecting";
  constructor(url, options) {
    this.#url = url;
    this.#options = { ...DEFAULTS, WebSocket: globalThis.WebSocket, ...options };
    [this.#pauses, this.#names] = [new Pauses(this.#options), new Pauses(this.#options)];
    if (!isFunction(this.#options.WebSocket)) throw unsent(NO_WEBSOCKET);
    connectFrame(this.#options.clientId, {});
    this.#watchPage();
    this.#watchClock(Date.now());
    this.#start();
  }

  /* The session that is open, or null. */
  get session() { return this.#link?.session ?? null; }
  get full() { return [...this.#full].filter(([, { timer }]) => timer).map(([destination]) => destination); }
  get underWay() { return this.#underWay; }
  send(destination, body, headers = {}) {
    return leavable((async () => { await this.#send(sendFrame(destination, body, headers, { receipt: NUMBER })); })());
  }
  sendWithRetry(destination, body, headers = {}) {
    return leavable((async () => {
      const frame = sendFrame(destination, body, headers, { receipt: NUMBER });
      while (true) {
        if (this.#underWay >= this.#options.mostWaiting) await this.drain(this.#options.mostWaiting - 1);
        try { return await this.#send(frame); } catch (error) { if (!this.#isWanted || (error.kind != "unsent" && error.code != "E12")) throw error; }
      }
    })());
  }
  async drain(most = 100) {
    while (this.#underWay > most) await new Promise(resolve => this.#drains.push(resolve));
  }
  tell(destination, body, headers = {}) {
    try {
      const frame = sendFrame(destination, body, headers, {});
      return this.session !== null && !this.#isFull({ destinations: [frame[1].destination] }) && this.#link.tell(frame);
    } catch (error) {
      if (error.kind != "refused") throw error;
      queueMicrotask(() => this.#complain(error));
      return false;
    }
  }
  subscribe(destination, heard, { ack = "auto", ackWithin, body = "text", durable, id: wanted = `subscription ${++this.#count}`, headers = {} } = {}) {
    const id = String(wanted), name = durable === undefined ? {} : { "activemq.subscriptionName": durable };
    if (this.#subscriptions.has(id)) throw unsent(`there is a subscription ${id}`);
    const subscription = new Subscription(this, id, { destination: String(destination), ack, ...name }, heard, { ackWithin, body });
    this.#subscriptions.set(id, subscription);
    if (this.#isWanted) this.#ask(subscription, headers); else this.drop(subscription);
    return subscription;
  }
  /* Nothing is sent before `work` is done, so what it throws leaves nothing. */
  transaction(work) {
    return leavable((async () => {
      const made = new Transaction(this), transaction = numbered(++this.#count);
      await work(made);
      this.#hasRoom();
      await this.ask(() => {
        const members = made.makers.map(make => make()).map(([command, headers, ...rest]) => [command, { ...headers, transaction }, ...rest]);
        return [["BEGIN", { transaction }], ...members, ["COMMIT", { transaction }]];
      }, made);
    })());
  }
  close() {
    if (this.state == "closed") return Promise.resolve();
    const closed = new Promise(resolve => this.#closing.push(resolve));
    if (!this.#isWanted) return closed;
    this.#isWanted = false;
    clearTimeout(this.#timer);
    const link = this.#link, { closeTimeout } = this.#options;
    if (this.session) {
      link.write([["DISCONNECT", { receipt: "bye" }]]);
      this.#timer = after(closeTimeout, () => link.end({ reason: `no answer to the DISCONNECT within ${closeTimeout} ms` }));
    } else if (link.isOver) this.#isClosed({ code: 1000 }); else link.end({ code: 1000 });
    return closed;
  }

  /* For the classes above: asks for what the frames say, whose last one asks for a receipt. They are made once there is a connection. */
  ask(make, { accepted = NOTHING, destinations = [], makesRoom = false } = {}) {
    return leavable(new Promise((resolve, reject) => {
      if (!this.#isWanted) throw unsent("the client is closed");
      const ends = act => value => {
        this.#underWay--;
        act(value);
        this.#drains.splice(0).forEach(it => it());
      };
      const isAccepted = ends(() => { accepted(); this.#hadRoom(destinations); resolve(); });
      const post = { make, reject: ends(reject), resolve: isAccepted, destinations, makesRoom, waits: true, since: performance.now() };
      this.#underWay++;
      if (this.session && !this.#isFull(post)) return this.#post(post);
      try { make(); } catch (error) { return post.reject(error); }    // what can't be sent later either is told now
      this.#wait(post);
    }));
  }
  get isNamed() { return Boolean(this.#options.clientId); }
  isOpen(link) { return link === this.#link && link.session !== null; }
  /* Forgets a subscription, and answers the connection that has it. */
  drop(subscription) {
    if (this.#subscriptions.get(subscription.id) !== subscription) return null;
    this.#reject(subscription, unsent("the subscription was ended before it was ready"));
    subscription.letGo();
    if (!this.isOpen(subscription.link)) return null;
    this.#link.ending.push(subscription);
    return this.#link;
  }

  /* A browser may keep a page that was left, with its connection: the page would hold its messages and names, and settle none. */
  #watchPage() {
    const on = (target, name, act) => target?.addEventListener?.(name, act, { signal: this.#page.signal });
    on(globalThis, "pagehide", () => this.#leave());
    on(globalThis, "pageshow", () => this.#return());
    on(globalThis.document, "freeze", () => this.#leave());
    on(globalThis.document, "resume", () => this.#return());
    on(globalThis, "online", () => this.#wake());
    on(globalThis.document, "visibilitychange", () => { if (document.visibilityState == "visible") this.#wake(); });
  }
  /* A clock that jumped belongs to a computer that slept. */
  #watchClock(last) {
    const { probeTimeout } = this.#options;
    this.#clock = after(probeTimeout, () => {
      const now = Date.now();
      this.#watchClock(now);
      if (Math.abs(now - last - probeTimeout) > probeTimeout) this.#wake();
    });
  }
  /* The network may be another now: a connection is probed, and a lost one is renewed without waiting. */
  #wake() {
    if (!this.#isWanted || this.#isAway) return;
    if (this.session) return this.#link.probe(this.#options);
    if (this.state != "lost") return;
    clearTimeout(this.#timer);
    this.#start();
  }
  #leave() {
    if (this.#isAway || !this.#isWanted) return;
    this.#isAway = true;
    clearTimeout(this.#timer);
    this.#link.end({ reason: "the page was left" });
  }
  #return() {
    if (!this.#isAway || !this.#isWanted) return;
    this.#isAway = false;
    this.#start();
  }
  #start() {
    this.#refusal = this.#isSettled = this.#rests = null;
    this.#tell("connecting");
    if (!this.#isWanted) return;               // `onstate` has closed it
    this.#link = new Link(this.#url, this.#options, {
      failed: error => this.#complain(error), opened: () => this.#begin(),
      heard: frame => this.#hear(frame),
      refused: (post, later, error) => this.#isRefused(post, later, error),
      over: (posts, detail) => this.#isOver(posts, detail),
    });
  }
  /* What users give is called so that what they throw, at once or later, breaks nothing. */
  async #call(work, subscription) { try { await work(); } catch (error) { this.#complain(error, subscription); } }
  #complain(error, subscription) { try { this.#options.onerror(error, subscription); } catch (another) { console.error(another); } }
  #tell(state, detail = {}) {
    this.state = state;
    this.#call(() => this.#options.onstate(state, detail));
  }
  async #send(frame) {
    this.#hasRoom();
    await this.ask(() => [frame], { destinations: [frame[1].destination] });
  }
  #hasRoom() {
    const { mostWaiting } = this.#options;
    if (this.#underWay >= mostWaiting) throw unsent(`${mostWaiting} others wait already`);
  }
  #wait(post) {
    const { waitTimeout } = this.#options, isLate = () => {
      this.#waiting.delete(post);
      post.reject(unsent(`no ${this.full.length ? "room" : "connection"} within ${waitTimeout} ms`));
    };
    this.#waiting.add(post);
    post.timer = after(post.since + waitTimeout - performance.now(), isLate);
  }
  /* Sends what waits and need not any more. */
  #flush() {
    for (const it of this.#waiting) {
      if (!this.session || this.#isFull(it)) continue;
      this.#waiting.delete(it);
      clearTimeout(it.timer);
      this.#post(it);
    }
  }
  /* Whether sending there rests. What acknowledges makes room, so it rests only after its like was refused. */
  #isFull({ destinations, makesRoom }) {
    const isFull = it => { const rest = this.#full.get(it); return rest?.timer && (!makesRoom || rest.makesRoom); };
    return destinations.some(isFull) || (this.#restsWholly && destinations.length > 0 && !makesRoom);
  }
  /* The broker had no room. What would be refused by the same is rejected with it, and the rest of what goes there waits. */
  #rest({ destinations, makesRoom }, later) {
    this.#rests = true;
    this.#restsWholly ||= this.full.some(it => !destinations.includes(it));
    let longest = 0;
    for (const it of destinations) {
      const rest = this.#full.get(it) ?? { pauses: new Pauses(this.#options) }, pause = rest.pauses.next();
      clearTimeout(rest.timer);
      rest.timer = setTimeout(() => this.#hasRested(rest), pause);
      this.#full.set(it, Object.assign(rest, { makesRoom }));
      longest = Math.max(longest, pause);
    }
    const others = [...this.#waiting, ...later].filter(it => it.waits && !it.makesRoom && destinations.every(place => it.destinations.includes(place)));
    for (const it of others) {
      this.#waiting.delete(it);
      clearTimeout(it.timer);
      it.reject(refused(`E12 no room for the message: ${destinations.join(", ")} had none for an earlier one`));
    }
    this.#call(() => this.#options.onfull(this.full, longest));
    return later.filter(it => !others.includes(it));
  }
  #hasRested(rest) {
    rest.timer = null;
    const { full } = this;
    if (!full.length) this.#restsWholly = false;
    this.#flush();
    this.#call(() => this.#options.onfull(full));
  }
  #hadRoom(destinations) {
    for (const it of destinations) if (!this.#full.get(it)?.timer) this.#full.delete(it);
  }
  #post(post) { try { this.#link.post(post); } catch (error) { post.reject(error); } }
  /* Opens a new subscription, if the broker can take it and there is a session. */
  #ask(subscription, further) {
    const { id, name } = subscription;
    try {
      if (!isFunction(subscription.heard)) throw unsent('subscribe takes a function, as subscribe("/topic/room", message => console.log(message.body))');
      const headers = subscription.headers = { ...given(further), ...subscription.headers };
      checked(["SUBSCRIBE", { ...headers, id }], { receipt: NUMBER });
      if (!BODIES.includes(subscription.body)) throw unsent(`body is ${BODIES.join(" or ")}`);
      if (!MODES.includes(headers.ack)) throw refused(`E20 bad header value: ack is ${MODES.join(", ")}`);
      if (subscription.ackWithin !== undefined && headers.ack == "auto") throw unsent("ackWithin is for ack: \"client\" or \"client-individual\"");
      if (this.#subscriptions.size > MOST_SUBSCRIPTIONS) throw refused(`E18 too many subscriptions: ${MOST_SUBSCRIPTIONS} are the most`);
      if (name && !this.isNamed && headers.destination.startsWith("/topic/")) throw refused(NAMELESS);
    } catch (error) {
      this.#reject(subscription, error);
      // Whoever hears of it knows the subscription by then.
      return queueMicrotask(() => this.#complain(error, subscription));
    }
    if (this.session) this.#open(subscription);
  }
  #reject(subscription, error) {
    this.#subscriptions.delete(subscription.id);
    Object.assign(subscription, { isEnded: true }).reject(error);
  }
  #open(subscription) {
    const { id, headers } = subscription;
    const resolve = () => {
      const wasContested = subscription.isContested;
      Object.assign(subscription, { isReady: true, isContested: false }).resolve();
      if (wasContested) this.#askForName();
    };
    // One that is lost comes back with the next session.
    const reject = error => { if (error.kind != "unknown") this.#isDenied(subscription, error); };
    subscription.link = this.#link;
    this.#post({ make: () => [["SUBSCRIBE", { ...headers, id }]], resolve, reject, subscription, destinations: [] });
  }
  /* The broker holds a session that was lost without a close for up to 90 s, and its durable names with it. So one in use is asked for again, after
     pauses, while all else goes on: one that was ready for good, another for `nameTimeout`. */
  #isDenied(subscription, error) {
    if (subscription.isEnded) return;
    const now = performance.now(), since = subscription.deniedAt ??= now;
    if (error.code != "E14" || !(subscription.isReady || now < since + this.#options.nameTimeout)) {
      this.#reject(subscription, error);
      return this.#complain(error, subscription);
    }
    this.#rests = subscription.isContested = true;
    // Another one comes before it.
    this.#subscriptions.delete(subscription.id);
    this.#subscriptions.set(subscription.id, subscription);
    this.#nameTimer = setTimeout(() => { this.#nameTimer = null; this.#askForName(); }, this.#names.next());
    this.#complain(refused(`${error.message}; it is tried again, since the session that has the name may be dead`), subscription);
  }
  #askForName() {
    const next = this.session && !this.#nameTimer && [...this.#subscriptions.values()].find(it => it.isContested);
    if (next) this.#open(next); else if (this.session && !this.#nameTimer) this.#names.reset();
  }
  #begin() {
    const subscriptions = [...this.#subscriptions.values()];
    subscriptions.filter(it => !it.isContested).forEach(it => this.#open(it));
    this.#flush();
    this.#askForName();
    this.#tell("open");
  }
  #hear({ headers, body }) {
    const link = this.#link, id = headers.subscription, ending = link.ending.find(it => it.id == id), subscription = ending ?? this.#subscriptions.get(id);
    // What was on its way to one that is ended is heard if it left the broker; else it comes again.
    if (!subscription || (ending && headers.ack !== undefined)) return;
    const message = new Message(this, link, subscription, headers, body), { ackWithin } = subscription;
    if (headers.ack !== undefined) subscription.hold(message, () => link.end({ reason: `a message was not acknowledged within ${ackWithin} ms` }));
    this.#call(() => subscription.heard(message), subscription);
  }
  /* What was asked after a refused one waits for the next session. */
  #isRefused(post, later, error) {
    this.#refusal = error.message;
    if (post && !post.isTold) post.reject(error); else this.#complain(error);
    const isFull = error.code == "E12" && post?.destinations.length > 0, left = isFull ? this.#rest(post, later) : later;
    left.filter(it => it.waits).forEach(it => this.#wait(it));
    // The dead session may have its other names too.
    if (post?.subscription?.isContested) for (const { subscription } of later) if (subscription?.name) subscription.isContested = true;
    this.#isSettled = post !== undefined;
  }
  #isOver(posts, detail) {
    this.#subscriptions.forEach(it => it.letGo());
    for (const it of posts) it.reject(new StompdError("unknown", `the connection was lost (${detail.code ?? detail.reason}) before the receipt`));
    if (!this.#isWanted) return this.#isClosed(detail);
    if (this.#isAway) return this.#tell("lost", detail);
    const pause = this.#nextPause();
    this.#timer = setTimeout(() => this.#start(), pause);
    this.#tell(this.#refusal ? "refused" : "lost", { pause, reason: this.#refusal, ...detail });
  }
  #nextPause() {
    const now = performance.now(), since = now - this.#settledAt;
    if (this.#link.lasted() >= this.#options.longestPause) this.#pauses.reset();
    if (this.#rests) return 0;
    if (this.#isSettled) {
      this.#settledAt = now;
      // What was refused is out of the way, so this goes on at once, unless that was so just before.
      if (since > 2 * this.#pauses.shortestNow) return 0;
    }
    return this.#pauses.next();
  }
  #isClosed(detail) {
    for (const it of [this.#timer, this.#nameTimer, this.#clock]) clearTimeout(it);
    this.#page.abort();
    for (const it of this.#full.values()) clearTimeout(it.timer);
    this.#full.clear();
    for (const it of this.#waiting) clearTimeout(it.timer);
    for (const it of [...this.#waiting, ...this.#subscriptions.values()]) it.reject(unsent("the client is closed"));
    this.#waiting.clear();
    this.#tell("closed", detail);
    this.#closing.splice(0).forEach(resolve => resolve());
  }
}

globalThis.Stompd = { connect: (url, options = {}) => new Client(url, options), StompdError };
})();
