/** The types of stompd.mjs: a client of STOMP 1.2 over WebSocket for stompd, which reconnects by itself. */

/** `refused`: the broker answered with an ERROR, or would have, so it is not in the journal. What passes a limit of the broker, or has a bad
 *  destination, is refused at once and not sent. `unknown`: the connection was lost before the receipt, so it may be in the journal or not. `unsent`: it
 *  was never sent or not carried out, so it is not there. */
export type Kind = "refused" | "unknown" | "unsent";

export class StompdError extends Error {
  constructor(kind: Kind, message: string, code?: string);
  readonly kind: Kind;
  /** That of a refusal, as `E12` (docs/PROTOCOL.md, "Codes"). */
  readonly code: string | undefined;
}

/** `lost` and `refused` are followed by `connecting`, after a pause; `closed` is the end. `refused`: the broker's ERROR has ended the session. The first
 *  has no pause after it, unless its cause remains. */
export type State = "connecting" | "open" | "lost" | "refused" | "closed";

export interface StateDetail {
  /** The close code of the WebSocket, or 1006 if it had none. Missing if the module abandoned a silent connection. */
  code?: number;
  /** Milliseconds until the next try. Missing if the page was left or is frozen: the client connects again when it is shown or resumed. */
  pause?: number;
  /** The `message` of the broker's ERROR, the time-out for which the module abandoned the connection, or why a function gave no answer. */
  reason?: string | null;
}

/** A value, or a function that is asked for it before each connection, as for a token. A failure goes to `onerror`, and counts as a lost connection. So
 *  does no answer within `answerTimeout`. */
export type Renewed<T> = T | (() => T | PromiseLike<T>);

/** Times are in milliseconds; `Infinity` turns a time-out off. */
export interface ConnectOptions {
  /** Names the client's durable subscriptions; one client at a time has it. It has no line end and no NUL. */
  clientId?: string;
  /** Headers of CONNECT, without ends of lines, for whatever stands before stompd, which reads none of them. `clientId` sets `client-id`. */
  headers?: Renewed<Headers>;
  /** Subprotocols to offer besides `v12.stomp`, which the broker takes. A proxy may find a token among them. */
  protocols?: Renewed<readonly string[]>;
  /** The first pause (500). It doubles with each loss, and with each refusal just after another. It returns to this after a session as long as the
   *  longest pause. */
  shortestPause?: number;
  /** The longest pause (8,000). Each is up to a quarter shorter or longer. */
  longestPause?: number;
  /** How long the broker may be silent while it connects or owes an answer (15,000); at most twice that. After such a silence an idle connection is
   *  probed, and lost without an answer. */
  answerTimeout?: number;
  /** How long an idle connection may be silent once it is probed since the computer or the page woke (3,000). */
  probeTimeout?: number;
  /** How long something waits for a connection, or for room, before it is `unsent` (60,000), counted from its call. */
  waitTimeout?: number;
  /** How long a durable name that is in use (E14) is asked for again before `ready` rejects (90,000): the broker may hold a dead session for so long. */
  nameTimeout?: number;
  /** How long `close` waits for the broker (5,000). */
  closeTimeout?: number;
  /** How many sends and transactions may be unanswered (10,000); a further one is `unsent`. */
  mostWaiting?: number;
  onstate?: (state: State, detail: StateDetail) => void;
  /** Is called when `full` has changed; with a pause in milliseconds if another destination has none. */
  onfull?: (full: readonly string[], pause?: number) => void;
  /** Gets errors without a promise: those of a listener or `onstate`, of a refused `tell`, and each refusal of a subscription, with the subscription.
   *  By default these go to the console. */
  onerror?: (error: unknown, subscription?: Subscription) => void;
  /** Without a global one, that of the package `ws`. */
  WebSocket?: new (url: string, protocols: string[]) => any;
}

/** The module omits those with null or undefined, and sets `content-length`, `receipt` and `transaction` itself. With these and the destination a frame
 *  has at most 64, and with the command 8,192 bytes of them, escapes included. */
export type Headers = Record<string, string | number | boolean | null | undefined>;

/** At most 65,536 bytes. Bytes are sent as such. Numbers are written as text; null and undefined are an empty body. */
export type Body = string | number | boolean | bigint | ArrayBuffer | ArrayBufferView | null | undefined;

/** Its body is text, or bytes if the subscription asked for these. */
export interface Message<B extends string | Uint8Array = string> {
  /** They have no prototype, so a header may have any name. */
  readonly headers: Readonly<Record<string, string>>;
  /** In a text, bytes that are not UTF-8 are U+FFFD. */
  readonly body: B;
  /** The body's bytes as they came. */
  readonly bytes: Uint8Array;
  /** Resolves at the receipt. `unsent` if its session or subscription is over (then it comes again, or is another's), or is `auto`; `refused` with E11, and
   *  not sent, if it was acknowledged or refused before, in the mode `client` also with a later one. */
  ack(): Promise<void>;
  /** Refuses it: it goes to `/queue/dead`. */
  nack(): Promise<void>;
}

export interface SubscribeOptions {
  ack?: "auto" | "client" | "client-individual";
  /** Bodies come as text, unless `subscribe` is given `body: "bytes"`. */
  body?: "text";
  /** Milliseconds from a message's arrival to its acknowledgement. After these the client closes its connection, so that the broker gives all that is
   *  unacknowledged to others, and connects again. Not for `auto`. It goes by the page's own timers. */
  ackWithin?: number;
  /** The name of a durable subscription of a topic; the client needs a `clientId`. */
  durable?: string;
  id?: string;
  headers?: Headers;
}

/** Is renewed with each session, until it is ended or refused. A durable one whose name is in use (E14) is asked for again after pauses, for
 *  `nameTimeout`, or for good once it was `ready`. Each such refusal ends a session, which is followed by another at once, and goes to `onerror`. */
export interface Subscription {
  readonly id: string;
  /** Its durable name was in use when it was last asked for; it is asked for again. */
  readonly isContested: boolean;
  /** Resolves once the subscription is in the journal; rejects if it is refused, or ended before. */
  readonly ready: Promise<void>;
  /** Ends it. A durable name keeps its messages. `auto` messages under way still arrive. */
  end(): Promise<void>;
  /** Drops a durable name with its messages. A plain subscription has none: `unsent`. */
  giveUp(): Promise<void>;
}

/** At most 64 members of 262,144 bytes together. Each call throws if the broker would refuse the member; uncaught, that rejects the transaction. */
export interface Transaction {
  send(destination: string, body?: Body, headers?: Headers): void;
  ack(message: Message<string | Uint8Array>): void;
  nack(message: Message<string | Uint8Array>): void;
}

/** None of its promises becomes an unhandled rejection. */
export interface Client {
  readonly state: State;
  /** The open session. */
  readonly session: string | null;
  /** The destinations that had no room (E12), while the client sends nothing there: first for the shortest pause, and twice as long each time that follows.
   *  Sends and transactions that waited to go there were rejected with it; later ones wait. If several are full, all sends wait. Listening goes on. */
  readonly full: readonly string[];
  /** Resolves at the receipt: the message is in the journal. Without a connection it waits for one. It is never carried out twice: it is sent again
   *  only if the broker refused something before it, and so dropped it. */
  send(destination: string, body?: Body, headers?: Headers): Promise<void>;
  /** As `send`, and again whenever it is certain not to be in the journal and may be later: it was `unsent`, or had no room (E12). Ends with the client. */
  sendWithRetry(destination: string, body?: Body, headers?: Headers): Promise<void>;
  /** How many sends, transactions and other calls have no answer yet. */
  readonly underWay: number;
  /** Resolves once at most so many are under way (100). */
  drain(most?: number): Promise<void>;
  /** Sends without a receipt, for messages that are worthless later. Without a connection, if 1 MiB waits to be sent, or if the broker would refuse it,
   *  it does nothing. Returns whether it sent. */
  tell(destination: string, body?: Body, headers?: Headers): boolean;
  /** Throws if a subscription has this id. There are at most 16. `ready` rejects at once if an argument is wrong, and `onerror` gets that too. */
  subscribe(destination: string, heard: (message: Message) => unknown, options?: SubscribeOptions): Subscription;
  subscribe(destination: string, heard: (message: Message<Uint8Array>) => unknown, options: Omit<SubscribeOptions, "body"> & { body: "bytes" }): Subscription;
  /** Carries out all that `work` puts into the transaction, or nothing. Resolves at the receipt of its COMMIT. */
  transaction(work: (tx: Transaction) => unknown): Promise<void>;
  /** Disconnects, and resolves once the connection is closed or `closeTimeout` is over. */
  close(): Promise<void>;
}

/** Connects to `ws://` or `wss://`, and retries until `close`. Throws without a WebSocket, or if a value that it is given is wrong. */
export function connect(url: Renewed<string>, options?: ConnectOptions): Client;

declare global {
  /** Made by stompd.js, also for a page that loads only that, after stompd_frames.js and stompd_link.js. */
  var Stompd: { connect: typeof connect; StompdError: typeof StompdError };
}
