// Tries `padnet serve` with a client over another WebSocket library, that of Node.js: the server is killed by signal 9 while it acknowledges, and is
// started again.
//
// usage: node --experimental-websocket tests/outside.mjs [KILLS [PROGRAM]]     (Node.js 22 and later need no flag)
//
// Three writers send messages to channels of their own at a window of up to eight, and a reader has joined all three. After each kill the history of each
// channel has to be what was sent to it, in order, with no message twice or left out, up to the last that was acknowledged or further; and what the
// reader heard has to be in it. The status is 1 if anything differs.

import { spawn } from "node:child_process";
import { randomBytes, randomInt } from "node:crypto";
import { mkdtempSync, rmSync } from "node:fs";
import { createServer, connect } from "node:net";
import { tmpdir } from "node:os";
import { dirname, join } from "node:path";
import { fileURLToPath } from "node:url";

const top = dirname(dirname(fileURLToPath(import.meta.url)));
const kills = Number(process.argv[2] ?? 20);
const program = process.argv[3] ?? join(top, "crates", "padnet", "out", "padnet");
const pause = (ms) => new Promise((done) => setTimeout(done, ms));

const freePort = () =>
  new Promise((done) => {
    const probe = createServer().listen(0, "127.0.0.1", () => {
      const { port } = probe.address();
      probe.close(() => done(port));
    });
  });

class Server {
  constructor(port, folder) {
    Object.assign(this, { port, folder });
  }

  async start() {
    this.process = spawn(program, ["serve", `127.0.0.1:${this.port}`, this.folder, "1000000000"], { stdio: "ignore" });
    this.ended = new Promise((done) => this.process.once("exit", done));
    for (let turn = 0; turn < 2000; turn++) {
      const listens = await new Promise((done) => {
        const probe = connect(this.port, "127.0.0.1", () => (probe.destroy(), done(true)));
        probe.once("error", () => done(false));
      });
      if (listens) return;
      await pause(5);
    }
    throw new Error("the server does not listen");
  }

  async kill() {
    this.process.kill("SIGKILL");
    await this.ended;
  }
}

// A connection, by its texts as values.
class Client {
  static async enter(port) {
    const client = new Client();
    client.texts = [];
    client.waiting = [];
    client.socket = new WebSocket(`ws://127.0.0.1:${port}/`);
    client.socket.onmessage = ({ data }) => client.give(JSON.parse(data));
    client.closed = new Promise((done) => (client.socket.onclose = () => (client.give(null), done())));
    client.socket.onerror = () => {};
    client.name = (await client.hear())[3];
    return client;
  }

  give(text) {
    const next = this.waiting.shift();
    if (next) next(text);
    else this.texts.push(text);
  }

  // The next text, or null behind the end.
  hear() {
    return this.texts.length ? Promise.resolve(this.texts.shift()) : new Promise((done) => this.waiting.push(done));
  }

  say(...value) {
    this.socket.send(JSON.stringify(value));
  }

  // Joins a channel, and gives the keeper's name.
  async join(channel) {
    this.say(7, "JOIN", channel);
    for (let keeper; ; ) {
      const text = await this.hear();
      if (text[2] === "JOIN" && text[3] === channel) keeper ??= text[1];
      if (text[2] === "JOIN" && text[1] === this.name) return keeper;
    }
  }

  // The senders and contents of a channel's entries.
  async history(keeper, channel) {
    const out = [];
    this.say(8, "MSG", keeper, JSON.stringify(["GET_FULL_HISTORY", channel]));
    for (;;) {
      const text = await this.hear();
      if (text === null) throw new Error("hung up within a history");
      if (text[2] === "HISTORY") out.push(`${text[5]} ${text[6]}`);
      if (text[2] === "HISTORY_END") return out;
    }
  }
}

const odd = ["", "é", "\u{1f600}", '"\\', "\n", "\u0001", "cp|"];

// Sends until the connection ends, and notes what was sent and how many of it were acknowledged.
async function write(client, channel, state) {
  let pending = 0;
  const send = () => {
    const content = `${odd[randomInt(odd.length)]}${state.sent.length} ${"y".repeat(randomInt(50) ? randomInt(300) : randomInt(20000))}`;
    state.sent.push(`${client.name} ${content}`);
    client.say(1, "MSG", channel, content);
    pending++;
  };
  const most = randomInt(1, 9);
  for (;;) {
    while (pending < most && client.socket.readyState === WebSocket.OPEN) send();
    const text = await client.hear();
    if (text === null) return;
    if (text[0] === 1 && text[1] === "ACK") {
      pending--;
      state.acknowledged++;
      all++;
    } else if (text[0] === 1) {
      throw new Error(`refused: ${JSON.stringify(text)}`);
    }
  }
}

async function read(client, states) {
  for (;;) {
    const text = await client.hear();
    if (text === null) return;
    if (text[2] === "MSG") states.get(text[3])?.heard.push(`${text[1]} ${text[4]}`);
  }
}

const folder = mkdtempSync(join(tmpdir(), "padnet-"));
const server = new Server(await freePort(), join(folder, "pads"));
const states = new Map();
let all = 0;
let differ = 0;
let beyond = 0;
try {
  await server.start();
  for (let turn = 0; turn < kills; turn++) {
    if (turn % 10 === 0) {
      // New channels now and then, so that histories stay short.
      states.clear();
      for (let i = 0; i < 3; i++) states.set(randomBytes(16).toString("hex"), { sent: [], acknowledged: 0, heard: [] });
    }
    const reader = await Client.enter(server.port);
    for (const channel of states.keys()) await reader.join(channel);
    const runs = [read(reader, states)];
    for (const [channel, state] of states) {
      const writer = await Client.enter(server.port);
      await writer.join(channel);
      runs.push(write(writer, channel, state));
    }
    await pause(100 + randomInt(700));
    await server.kill();
    await Promise.all(runs);
    await server.start();
    for (const [channel, state] of states) {
      // A connection for each: behind a history of more than 32 MiB the next text may be refused.
      const asking = await Client.enter(server.port);
      const keeper = await asking.join(randomBytes(16).toString("hex"));
      const told = await asking.history(keeper, channel);
      asking.socket.close();
      await asking.closed;
      const same = told.every((entry, at) => entry === state.sent[at]);
      const there = new Set(told);
      const heard = state.heard.every((entry) => there.has(entry));
      if (!same || told.length < state.acknowledged || told.length > state.sent.length || !heard) {
        differ++;
        const counts = `${state.acknowledged} acknowledged, ${told.length} in the history, ${state.sent.length} sent`;
        console.log(`DIFFERS after kill ${turn + 1}: ${counts}, in order ${same}, heard ${heard}`);
      }
      beyond += told.length - state.acknowledged;
      state.sent = told;
      state.acknowledged = told.length;
      state.heard = [];
    }
  }
} finally {
  await server.kill();
  rmSync(folder, { recursive: true });
}
const unheard = `${beyond} more were stored whose acknowledgement was not heard`;
console.log(`${kills} kills; ${all} messages were acknowledged, and ${unheard}; ${differ ? `${differ} histories differ` : "all agree"}`);
process.exitCode = differ || !all ? 1 : 0;
