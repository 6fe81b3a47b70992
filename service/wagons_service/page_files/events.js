// Follows the office's events for all tabs of a browser, which have one stream together, and tells them that something
// happened, or that there are notes. What it was they ask for themselves. It runs in a shared worker; in a browser without them, in one of the tabs.
"use strict";

{
  const AGAIN = 1500; // After so many milliseconds a stream that ended is opened again, whatever it ended with.
  const TICK = 1000;
  const ASLEEP = 5000; // No tick for so long: the machine slept, and its connections may be gone without a sign.
  const SILENT = 35000; // The service gives a sign each 15 seconds.
  const ANSWER = 4000;
  const SIGN = 5000; // So often it is told again whether the stream is open.
  const WAIT = 250;
  const NOTES = "event: notes"; // Names the event in the line before its data.
  const DATA = "data: {";
  const ENOUGH = 20; // So much of a line says what it is.
  const FORBIDDEN = 403;

  self.followEvents = async (tell) => {
    let stream = new AbortController();
    let heard = Date.now();
    let ticked = Date.now();
    const telling = {};
    let last = "lost";
    const become = (said, told = said) => {
      last = said;
      tell(told);
    };

    const tellSoon = (said) => { telling[said] ??= setTimeout(() => { telling[said] = null; tell(said); }, WAIT); };

    function reading() { // Tells what the lines of the stream say, which come in pieces.
      const decoder = new TextDecoder();
      let piece = "";
      let said = "happened";
      return (part) => {
        const lines = (piece + decoder.decode(part, { stream: true })).split("\n");
        piece = lines.pop().slice(0, ENOUGH);
        for (const line of lines) {
          if (line.startsWith(DATA)) tellSoon(said);
          said = line === NOTES ? "noted" : "happened";
        }
      };
    }

    async function open() {
      const late = setTimeout(() => stream.abort(), ANSWER);
      const get = (path) => fetch(path, { credentials: "same-origin", cache: "no-store", signal: stream.signal });
      try {
        const answer = await get("/events?notes=0");
        if (answer.status !== FORBIDDEN) return answer;
        await answer.body?.cancel();
        return await get("/events"); // Who may not read notes hears of the rest.
      } finally {
        clearTimeout(late);
      }
    }

    async function listen() {
      stream = new AbortController();
      heard = Date.now();
      const answer = await open();
      if (!answer.ok) {
        stream.abort(); // What is left of the answer nobody reads.
        return;
      }
      become("open", "opened"); // Something may have happened between two streams.
      const read = reading();
      const reader = answer.body.getReader();
      for (let part = await reader.read(); !part.done; part = await reader.read()) {
        heard = Date.now();
        read(part.value);
      }
    }

    setInterval(() => {
      const now = Date.now();
      if (now - ticked > ASLEEP || now - heard > SILENT) stream.abort();
      ticked = now;
    }, TICK);
    setInterval(() => tell(last), SIGN);
    for (;;) {
      await listen().catch(() => {});
      become("lost");
      await new Promise((done) => setTimeout(done, AGAIN));
    }
  };
}

if (self.SharedWorkerGlobalScope) {
  const tabs = new Set();
  let last = "lost";
  const tell = (said) => {
    last = said === "lost" ? "lost" : "open";
    tabs.forEach((tab) => tab.postMessage(said));
  };
  self.onconnect = ({ ports: [tab] }) => {
    tabs.add(tab);
    tab.onmessage = () => tabs.delete(tab); // It says that it is closed, and nothing else.
    tab.postMessage(last);
  };
  self.followEvents(tell);
}
