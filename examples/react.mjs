/* stompd.mjs in React 18 and later. Make the client outside of components, once: `const client = connect("wss://..")`. */
import { useEffect, useReducer, useRef } from "react";

/* Subscribes while the component is mounted. */
export function useSubscription(client, destination, heard, options) {
  const latest = useRef(heard);
  useEffect(() => { latest.current = heard; });
  useEffect(() => {
    const subscription = client.subscribe(destination, message => latest.current(message), options);
    return () => { subscription.end(); };
  }, [client, destination]);
}

/* The messages that came meanwhile, the last `most` of them. */
export function useMessages(client, destination, { most = 100, ...options } = {}) {
  const [messages, add] = useReducer((all, message) => [...all, message].slice(-most), []);
  useSubscription(client, destination, add, options);
  return messages;
}
