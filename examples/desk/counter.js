// A desk in JavaScript: asks `nrm-tools serve` the lines of standard input in the name of a desk, and writes its replies.
//
//     node counter.js /run/nrm/desks COUNTER-7 [NETWORK] < lines
//
// Each line has a number of the desk's own. If the connection is lost before its reply is there, the line is sent again on
// a new one, under its number: it is carried out once. Where several servers share the networks, it goes on at the one that
// `closed moved HOST:PORT` names. It ends with 0, or with 1 if it is turned away for good, as a line `closed WHY` tells, or if
// no connection comes in some 30 seconds.
"use strict";
const net = require("net");
const readline = require("readline");

const TRIES = 300, PAUSE = 100; // milliseconds
const PASSES = /^closed (clients|half|idle|journal|stopping|memory|gone|wait|program .*)$/;
const MOVED = /^closed moved \[?([^\s\]]+)\]?:(\d{1,5})$/; // the server that has its network
const HAS_MORE = /^(value |leg .* sold [1-9])/; // up to an empty line

class Lost extends Error {
  constructor(why, place) {
    super(why);
    this.place = place; // where the next connection goes, if that was told
  }
}
class Ended extends Error {}

class Desk {
  constructor(path, name, network) {
    Object.assign(this, { path, name, network, place: { path }, sequence: 0, socket: null, lines: [], left: "", wake: () => {} });
  }

  // Connects and greets with the number of the next line.
  async connect() {
    Object.assign(this, { lines: [], left: "", isOver: false });
    const socket = (this.socket = net.connect(this.place));
    const end = () => { if (this.socket === socket) { this.isOver = true; this.wake(); } };
    socket.setEncoding("latin1").on("error", end).on("close", end).on("data", (piece) => {
      const lines = (this.left + piece).split("\n");
      this.left = lines.pop();
      this.lines.push(...lines);
      this.wake();
    });
    const number = this.sequence ? [this.sequence] : [];
    socket.write(["desk", ...(this.network ? [this.network] : []), this.name, ...number].join(" ") + "\n");
    const told = await this.next();
    if (!/^at \d+$/.test(told)) throw new Ended(told);
    this.sequence = Number(told.slice(3));
  }

  // The next line that comes.
  async next() {
    while (!this.lines.length) {
      if (this.isOver) throw new Lost("the connection has ended");
      await new Promise((wake) => { this.wake = wake; });
    }
    const line = this.lines.shift();
    const moved = MOVED.exec(line);
    if (moved) throw new Lost(line, { host: moved[1], port: Number(moved[2]) });
    if (line.startsWith("closed ")) throw PASSES.test(line) ? new Lost(line) : new Ended(line);
    return line;
  }

  // The reply to a line, which is sent until it comes.
  async ask(line) {
    for (let tries = 0; ; tries++) {
      try {
        if (!this.socket) await this.connect();
        this.socket.write(line + "\n");
        let reply = await this.next();
        while (reply === "") reply = await this.next(); // what may end the text before
        const text = [reply];
        if (HAS_MORE.test(reply)) while ((reply = await this.next()) !== "") text.push(reply);
        this.sequence++;
        return text.join("\n") + (text.length > 1 ? "\n" : "");
      } catch (why) {
        this.close();
        if (!(why instanceof Lost) || tries === TRIES) throw why;
        this.place = why.place || { path: this.path };
        await new Promise((done) => setTimeout(done, PAUSE));
      }
    }
  }

  close() {
    const socket = this.socket;
    this.socket = null;
    if (socket) socket.destroy();
  }
}

async function main([path, name, network]) {
  if (!name) throw new Ended("usage: counter.js PATH NAME [NETWORK] < lines");
  const desk = new Desk(path, name, network);
  for await (const line of readline.createInterface({ input: process.stdin })) console.log(await desk.ask(line));
  desk.close();
}

main(process.argv.slice(2)).catch((why) => { console.log(why.message); process.exitCode = 1; });
