// A connection to a language server: messages over the streams of a process.
"use strict";

class Connection {
  // `heard` is called with the method and the parameters of each notification of the server.
  constructor(input, output, heard) {
    this.input = input;
    this.heard = heard;
    this.next = 1;
    this.waiting = new Map();
    this.bytes = Buffer.alloc(0);
    output.on("data", (chunk) => this.take(chunk));
    output.on("end", () => this.end());
  }

  send(message) {
    const content = Buffer.from(JSON.stringify({ jsonrpc: "2.0", ...message }));
    this.input.write(`Content-Length: ${content.length}\r\n\r\n`);
    this.input.write(content);
  }

  notify(method, params) {
    this.send({ method, params });
  }

  // Returns a promise of the result.
  request(method, params) {
    const id = this.next++;
    this.send({ id, method, params });
    return new Promise((done, failed) => this.waiting.set(id, { done, failed }));
  }

  // Takes bytes of the server, and answers the messages that end in them.
  take(chunk) {
    this.bytes = Buffer.concat([this.bytes, chunk]);
    for (;;) {
      const head = this.bytes.indexOf("\r\n\r\n");
      if (head < 0) return;
      const length = /Content-Length: (\d+)/i.exec(this.bytes.toString("latin1", 0, head));
      const start = head + 4;
      const end = start + Number(length && length[1]);
      if (this.bytes.length < end) return;
      const content = this.bytes.toString("utf8", start, end);
      this.bytes = this.bytes.subarray(end);
      if (content) this.hear(JSON.parse(content));
    }
  }

  hear(message) {
    if (message.method) {
      this.heard(message.method, message.params);
      return;
    }
    const waiting = this.waiting.get(message.id);
    this.waiting.delete(message.id);
    if (!waiting) return;
    if (message.error) waiting.failed(new Error(message.error.message));
    else waiting.done(message.result);
  }

  end() {
    for (const { failed } of this.waiting.values()) failed(new Error("the server ended"));
    this.waiting.clear();
  }
}

module.exports = { Connection };
