/** The types of react.mjs: hooks for React 18 and later. */
import type { Client, Message, SubscribeOptions } from "./stompd.mjs";

/** Subscribes while the component is mounted. Other `options` count from the next mount. */
export function useSubscription(client: Client, destination: string, heard: (message: Message) => unknown, options?: SubscribeOptions): void;
/** The messages that came meanwhile, the last `most` of them (100). */
export function useMessages(client: Client, destination: string, options?: SubscribeOptions & { most?: number }): readonly Message[];
