#!/usr/bin/env python3
"""Sends malformed messages to mbe-lsp, each of which it refuses or ignores, and then goes on.

    tools/editors/malformed.py [--mbe-lsp PROGRAM] [--count N] [--seed S]

A message is a valid one with bytes, members or its header changed. After every hundred, a valid
request must get its response, so the server is alive and in step. Each error must have a number of
JSON-RPC or of the protocol. The last line is `N passed, M failed`.
"""
import json
import os
import random
import sys

sys.path.insert(0, os.path.dirname(os.path.dirname(os.path.abspath(__file__))))
sys.path.insert(0, os.path.dirname(os.path.abspath(__file__)))
import common  # noqa: E402
from client import Client, sample_texts  # noqa: E402

URI = "file:///no-such-folder/a.rs"
CODES = {-32700, -32600, -32601, -32602, -32002, -32800, -32803}
VALUES = [None, True, 0, -1, 1.5, 10 ** 30, "", "x", [], {}, [[]], {"line": 0}, "file:///",
          {"start": {"line": 0, "character": 0}, "end": {"line": 2 ** 64 - 1, "character": 2 ** 64 - 1}}]
METHODS = ["textDocument/hover", "textDocument/definition", "textDocument/references",
           "textDocument/documentSymbol", "textDocument/codeAction", "textDocument/completion",
           "textDocument/signatureHelp", "textDocument/codeLens", "textDocument/diagnostic",
           "textDocument/rename", "textDocument/prepareRename", "textDocument/foldingRange",
           "textDocument/selectionRange", "textDocument/semanticTokens/full",
           "textDocument/semanticTokens/range", "mbe/expansion",
           "rust-analyzer/expandMacro", "textDocument/didChange", "textDocument/didOpen",
           "textDocument/didSave", "textDocument/didClose", "workspace/didChangeWatchedFiles",
           "$/cancelRequest", "no/such"]


def valid(rng):
    """A message that is valid, or nearly."""
    at = {"line": rng.randrange(40), "character": rng.randrange(90)}
    params = {"textDocument": {"uri": URI, "version": 2, "text": rng.choice(sample_texts())},
              "position": at, "range": {"start": at, "end": at}, "context": {"diagnostics": []},
              "positions": [at], "newName": rng.choice(["n", "$n", "x", "fn", ""]),
              "origins": rng.random() < 0.5,
              "contentChanges": [{"range": {"start": at, "end": at}, "text": "m!("}]}
    message = {"jsonrpc": "2.0", "method": rng.choice(METHODS), "params": params}
    if not message["method"].startswith("textDocument/did") and rng.random() < 0.9:
        message["id"] = rng.choice([rng.randrange(10 ** 6, 10 ** 7), "a"])
    return message


def places(value, path=()):
    """The paths of the members of a value."""
    yield path
    items = value.items() if isinstance(value, dict) else enumerate(value) if isinstance(value, list) else ()
    for key, inner in items:
        yield from places(inner, (*path, key))


def spoiled(rng, message):
    """The message with one member replaced or taken away."""
    path = rng.choice([it for it in places(message) if it])
    at = message
    for key in path[:-1]:
        at = at[key]
    if rng.random() < 0.3 and isinstance(at, dict):
        del at[path[-1]]
    else:
        at[path[-1]] = rng.choice(VALUES)
    return message


def content(rng):
    """Returns content with one of several faults."""
    whole = json.dumps(spoiled(rng, valid(rng)), ensure_ascii=rng.random() < 0.5).encode()
    kind = rng.randrange(6)
    if kind == 0:
        return whole[:rng.randrange(len(whole))]
    if kind == 1:
        at = rng.randrange(len(whole))
        return whole[:at] + bytes([rng.randrange(256)]) + whole[at + 1:]
    if kind == 2:
        return bytes(rng.randrange(256) for _ in range(rng.randrange(60)))
    if kind == 3:
        return rng.choice([b"[", b'{"a":', b"[{"]) * rng.choice([1, 200, 20000])
    return whole


def framed(rng):
    """Content with a header. The header may have more lines, be malformed, or be missing."""
    inner = content(rng)
    head = b"Content-Length: %d\r\n\r\n" % len(inner)
    kind = rng.randrange(8)
    if kind == 0:
        head = b"Content-Type: x\r\n" + head
    if kind == 1:
        junk = bytes(rng.choice(b"abc:;, \t\x00\xff-019") for _ in range(rng.randrange(30)))
        head = junk + rng.choice([b"\r\n", b"\n", b"\r\n\r\n"]) + head
    if kind == 2:
        head = head.replace(b"\r\n", b"\n")
    if kind == 3:
        head = rng.choice([b"Content-Length: x\r\n\r\n", b"Content-Length: -5\n\n", b"\r\n"]) + head
    return head + inner


def is_error_known(message):
    return "error" not in message or message["error"]["code"] in CODES


def main():
    parser = common.arguments(__doc__)
    parser.add_argument("--mbe-lsp", metavar="PROGRAM", type=os.path.abspath,
                        help="the program mbe-lsp; if left out, this checkout's, without proof")
    parser.add_argument("--count", type=int, default=10000, help="how many messages (10000)")
    parser.add_argument("--seed", type=int, default=1)
    args = parser.parse_args()
    rng = random.Random(args.seed)
    client = Client(common.mbe_lsp(args.mbe_lsp))
    client.open(URI, sample_texts()[0])
    passed = failed = 0
    for first in range(0, args.count, 100):
        wrong = []
        try:
            for _ in range(min(100, args.count - first)):
                client.send(framed(rng))
            client.send({"jsonrpc": "2.0", "id": f"step {first}", "method": "textDocument/hover",
                         "params": {"textDocument": {"uri": URI}, "position": {"line": 0, "character": 0}}})
            while True:
                message = client.receive()
                wrong += [] if is_error_known(message) else [message]
                if message.get("id") == f"step {first}":
                    wrong += [message] if "error" in message else []
                    break
        except (EOFError, BrokenPipeError, ValueError) as error:
            print(f"after {first} messages: {error}")
            return common.finish(passed, failed + 1)
        for message in wrong:
            print(f"after {first} messages: {message}")
        passed, failed = passed + 100 - len(wrong), failed + len(wrong)
    status = client.close()
    if status != 0:
        print(f"the server ended with status {status}")
    return common.finish(passed, failed + (status != 0))


if __name__ == "__main__":
    sys.exit(main())
