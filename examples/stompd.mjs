/* The client of stompd.js as a module: `import { connect } from "./stompd.mjs"`. Take all four files, and stompd.d.mts for the types. */
import "./stompd_frames.js";
import "./stompd_link.js";
import "./stompd.js";

export const { connect, StompdError } = globalThis.Stompd;
