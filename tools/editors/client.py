"""A client of the Language Server Protocol for tests: it talks to a running server."""
import json
import os
import queue
import subprocess
import threading


class Client:
    """A running server, and what it said."""

    def __init__(self, program, encoding="utf-16"):
        self.server = subprocess.Popen(  # pylint: disable=consider-using-with
            [program], stdin=subprocess.PIPE, stdout=subprocess.PIPE, cwd="/")
        self.number = 0
        self.diagnostics = {}
        # The server's messages are read as they come, so it never waits for this client.
        self.messages = queue.Queue()
        threading.Thread(target=self.listen, daemon=True).start()
        self.request("initialize", processId=None, rootUri=None,
                     capabilities={"general": {"positionEncodings": [encoding]}})
        self.notify("initialized")

    def send(self, message):
        """Sends a message, or bytes as they are."""
        if not isinstance(message, bytes):
            content = json.dumps(message).encode()
            message = b"Content-Length: %d\r\n\r\n%s" % (len(content), content)
        self.server.stdin.write(message)
        self.server.stdin.flush()

    def notify(self, method, **params):
        self.send({"jsonrpc": "2.0", "method": method, "params": params})

    def listen(self):
        """Reads the server's messages up to the end of its output."""
        while True:
            length = None
            for line in iter(self.server.stdout.readline, b""):
                if not line.strip():
                    break
                name, _, value = line.partition(b":")
                if name.lower() == b"content-length":
                    length = int(value)
            if length is None:
                self.messages.put(None)
                return
            self.messages.put(self.server.stdout.read(length))

    def receive(self):
        """The next message of the server; an end of its output is an error."""
        content = self.messages.get(timeout=120)
        if content is None:
            raise EOFError(f"the server ended with status {self.server.wait()}")
        message = json.loads(content)
        if message.get("method") == "textDocument/publishDiagnostics":
            params = message["params"]
            self.diagnostics[params["uri"]] = params["diagnostics"]
        return message

    def request(self, method, **params):
        """Sends a request, and returns the response."""
        self.number += 1
        number = self.number
        self.send({"jsonrpc": "2.0", "id": number, "method": method, "params": params})
        while True:
            message = self.receive()
            if message.get("id") == number:
                return message

    def open(self, uri, text, version=1):
        self.notify("textDocument/didOpen", textDocument={
            "uri": uri, "languageId": "rust", "version": version, "text": text})

    def change(self, uri, version, changes):
        self.notify("textDocument/didChange", textDocument={"uri": uri, "version": version},
                    contentChanges=changes)

    def close(self):
        """Ends the session, and returns the exit status."""
        self.request("shutdown")
        self.notify("exit")
        self.server.stdin.close()
        return self.server.wait(timeout=60)


def sample_texts():
    """Texts with macros, for random edits."""
    top = os.path.dirname(os.path.dirname(os.path.dirname(os.path.abspath(__file__))))
    texts = []
    for name in ("tour.rs", "mistake.rs"):
        with open(f"{top}/crates/expandm/data/{name}", encoding="utf-8") as it:
            texts.append(it.read())
    texts += [
        "macro_rules! m { ($x:expr, $($y:ident),*) => { [$x, $($y),*] }; () => {}; }\n"
        "fn f() { m!(1, a, b); m!(); m!(1; 2); }\n",
        "macro_rules! é { (\U0001d11e) => {}; ($t:tt) => { \"\U0001d11eé\" }; }\r\n"
        "// \U0001d11e\r\nfn f() { é!(a); é!(a b); }\r\n",
        "mod a { macro_rules! m { () => { 1 }; } pub(crate) use m; }\nfn f() { a::m!(); m!(); }\n",
    ]
    return texts
