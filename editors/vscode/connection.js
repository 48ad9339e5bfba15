"use strict";
// Messages with a language server over the streams of a process: JSON behind a header with its length.

const END_OF_HEADER = "\r\n\r\n";

class Connection {
  // `heard` is called with each notification: its method and its parameters.
  constructor(running, heard) {
    this.running = running;
    this.heard = heard;
    this.count = 0;
    this.waiting = new Map();
    this.left = Buffer.alloc(0);
    running.stdout.on("data", (data) => this.take(data));
    running.stdin.on("error", () => this.close());
    running.on("error", () => this.close());
    running.on("exit", () => this.close());
  }

  take(data) {
    this.left = Buffer.concat([this.left, data]);
    for (;;) {
      const end = this.left.indexOf(END_OF_HEADER);
      if (end < 0) return;
      const length = /content-length: *(\d+)/i.exec(this.left.toString("ascii", 0, end));
      if (!length) return this.running.kill();
      const first = end + END_OF_HEADER.length;
      const behind = first + Number(length[1]);
      if (this.left.length < behind) return;
      const message = JSON.parse(this.left.toString("utf8", first, behind));
      this.left = this.left.subarray(behind);
      this.hear(message);
    }
  }

  hear(message) {
    if (message.method) return this.heard(message.method, message.params);
    const answer = this.waiting.get(message.id);
    this.waiting.delete(message.id);
    // An error, as of a request that was cancelled, is no answer.
    if (answer) answer(message.error ? null : message.result);
  }

  send(message) {
    const content = Buffer.from(JSON.stringify({ jsonrpc: "2.0", ...message }), "utf8");
    if (!this.running.stdin.writable) return;
    this.running.stdin.write(`Content-Length: ${content.length}${END_OF_HEADER}`);
    this.running.stdin.write(content);
  }

  notify(method, params) {
    this.send({ method, params });
  }

  // The answer; null where there is none. `token` is the editor's, by which the request is cancelled.
  request(method, params, token) {
    const id = ++this.count;
    return new Promise((answer) => {
      this.waiting.set(id, answer);
      if (token) token.onCancellationRequested(() => this.notify("$/cancelRequest", { id }));
      this.send({ id, method, params });
    });
  }

  close() {
    for (const answer of this.waiting.values()) answer(null);
    this.waiting.clear();
  }
}

module.exports = { Connection };
