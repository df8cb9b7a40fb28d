/* What clients/module.py has Node do: reads lines of JSON, each the body of an async function, and answers each with a line of JSON.
   node [--experimental-websocket] module.mjs [PATH OF THE PACKAGE ws] */
import { createInterface } from "node:readline";
import { connect, StompdError } from "../examples/stompd.mjs";

const [, , package_of_ws] = process.argv;
if (package_of_ws) globalThis.WebSocket = (await import(package_of_ws)).default;
Object.assign(globalThis, { connect, StompdError });
const AsyncFunction = (async () => {}).constructor;

for await (const line of createInterface({ input: process.stdin })) {
  try {
    console.log(JSON.stringify({ value: (await new AsyncFunction(JSON.parse(line))()) ?? null }));
  } catch (error) {
    console.log(JSON.stringify({ error: String(error.stack ?? error) }));
  }
}
process.exit(0);
