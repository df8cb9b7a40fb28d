/* What clients/module_types.py has tsc check against examples/stompd.d.mts, and Node run over a broker: each call and member that the types name, and
   uses that they must refuse. node [--experimental-websocket] every_call.mjs URL [PATH OF THE PACKAGE ws] */
import { connect, StompdError } from "../examples/stompd.mjs";
import type { Body, Client, ConnectOptions, Headers, Kind, Message, Renewed, State, StateDetail, SubscribeOptions, Subscription, Transaction } from "../examples/stompd.mjs";

declare const process: { argv: string[]; exitCode: number };
declare const console: { log(text: string): void };

/* What typeof answers of each member: tsc asks that none is missing here and none too many, Node that each is there. */
type Kinds<T> = { [Name in keyof Required<T>]: "string" | "object" | "function" | "boolean" | "number" };
const CLIENT: Kinds<Client> = { state: "string", session: "string", full: "object", underWay: "number", send: "function", sendWithRetry: "function", drain: "function", tell: "function", subscribe: "function", transaction: "function", close: "function" };
const SUBSCRIPTION: Kinds<Subscription> = { id: "string", isContested: "boolean", ready: "object", end: "function", giveUp: "function" };
const MESSAGE: Kinds<Message> = { headers: "object", body: "string", bytes: "object", ack: "function", nack: "function" };
const TRANSACTION: Kinds<Transaction> = { send: "function", ack: "function", nack: "function" };

function hold<T extends object>(what: string, value: T, kinds: Kinds<T>): void {
  for (const name of Object.keys(kinds) as (keyof T & string)[]) {
    if (typeof value[name] == kinds[name]) continue;
    console.log(`${what}.${name} is ${typeof value[name]} and not ${kinds[name]}`);
    process.exitCode = 1;
  }
}

const [, , url, package_of_ws] = process.argv, states: State[] = [];
const options: Required<Omit<ConnectOptions, "WebSocket">> = {
  clientId: "kiosk", headers: async () => ({ token: "t", none: null }), protocols: ["token.t"], shortestPause: 100, longestPause: 500, answerTimeout: 5_000, probeTimeout: 1_000, waitTimeout: Infinity, nameTimeout: 1_000, closeTimeout: 1_000, mostWaiting: 100,
  onstate: (state: State, { code, pause, reason }: StateDetail) => { states.push(state); const all: [number | undefined, number | undefined, string | null | undefined] = [code, pause, reason]; void all; },
  onfull: (full: readonly string[], pause?: number) => { void full.length; void pause; },
  onerror: (error: unknown, subscription?: Subscription) => console.log(`${subscription?.id}: ${error}`),
};
const client: Client = connect(() => url!, package_of_ws ? { ...options, WebSocket: (await import(package_of_ws)).default } : options);

const first = (destination: string, more: SubscribeOptions): Promise<[Message, Subscription]> => new Promise(resolve => {
  const subscription: Subscription = client.subscribe(destination, message => resolve([message, subscription]), more);
});
const headers: Headers = { key: 1, is: true, left: undefined, out: null }, bodies: Body[] = ["text", 1, true, 1n, new ArrayBuffer(1), new Uint8Array(1), null, undefined];
for (const body of bodies) await client.send("/queue/jobs", body, headers);

const [message, jobs] = await first("/queue/jobs", { ack: "client-individual", id: "jobs", headers });
await jobs.ready;
hold("client", client, CLIENT);
hold("subscription", jobs, SUBSCRIPTION);
hold("message", message, MESSAGE);
const key: string | undefined = message.headers["key"], text: string = message.body, bytes: Uint8Array = message.bytes;
if (key != "1" || text != "text" || bytes.length != 4) throw new Error(`${key} ${text} ${bytes}`);
await message.ack();
await jobs.end();

const raw: Uint8Array = await new Promise(resolve => { client.subscribe("/topic/raw", ({ body }) => resolve(body), { body: "bytes", id: "raw" }); void client.sendWithRetry("/topic/raw", "raw"); });
if (raw.length != 3) throw new Error(`${raw}`);
await client.drain();
if (client.underWay != 0) throw new Error(`${client.underWay}`);
await client.drain(1);
const [another, again] = await first("/queue/jobs", { ack: "client" });
await another.nack();
await again.end();
const [third] = await first("/queue/jobs", { ack: "client-individual" });
await client.transaction(async (tx: Transaction) => {
  hold("transaction", tx, TRANSACTION);
  tx.ack(third);
  tx.send("/topic/room", "done", headers);
});

const paper: Subscription = client.subscribe("/topic/news", () => {}, { durable: "news", ack: "auto" });
await paper.ready;
await paper.giveUp();
const told: boolean = client.tell("/topic/room", "told", headers), open: State = client.state, session: string | null = client.session;
const error: unknown = await client.send("nowhere").catch(it => it);
if (!(error instanceof StompdError)) throw error;
const kind: Kind = error.kind, code: string | undefined = error.code;
await client.close();
console.log([told, open, session !== null, kind, code, client.state, states[0], new StompdError("refused", "mine").message, typeof Stompd.connect].join(" "));

const waited: Renewed<string>[] = ["a", () => "a", async () => "a"];
void waited;

/* What the types refuse. Nobody calls it. */
export function refused(): void {
  // @ts-expect-error: a URL is a text
  connect(8080);
  // @ts-expect-error: nor does a function answer another
  connect(async () => 8080);
  // @ts-expect-error: there is no such option
  connect("ws://a", { pause: 1 });
  // @ts-expect-error: nor such a kind
  new StompdError("lost", "x");
  // @ts-expect-error: a destination is needed
  client.send();
  // @ts-expect-error: an object is no body
  client.send("/topic/a", { a: 1 });
  // @ts-expect-error: nor is it a header
  client.send("/topic/a", "x", { a: {} });
  // @ts-expect-error: a listener is needed
  client.subscribe("/topic/a");
  // @ts-expect-error: there are three modes
  client.subscribe("/topic/a", () => {}, { ack: "individual" });
  // @ts-expect-error: what is told has no promise
  client.tell("/topic/a").then(() => {});
  // @ts-expect-error: a session can't be set
  client.session = "7";
  // @ts-expect-error: bodies are text unless bytes are asked for
  client.subscribe("/topic/a", message => message.body.fill(0));
  // @ts-expect-error: then they are no text
  client.subscribe("/topic/a", message => message.body.toUpperCase(), { body: "bytes" });
  // @ts-expect-error: there is no third
  client.subscribe("/topic/a", () => {}, { body: "json" });
  // @ts-expect-error: nor can a body
  message.body = "x";
  // @ts-expect-error: an acknowledgement in a transaction has no promise
  client.transaction(tx => tx.ack(message).then(() => {}));
}
