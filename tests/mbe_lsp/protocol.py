"""The order of a session, and messages that are refused, as the Language Server Protocol 3.17 and JSON-RPC 2.0 say."""
from mbe_lsp import NAME, asked, ending, framed, initialize, notification, opened, parsed, request

HOVER = asked(7, "textDocument/hover", 0, 0)

# Messages, and the responses to them: the identifier, and the number of the error or None. A message is a value, or content as text.
RESPONSES = (
    ([HOVER], [(7, -32002)]),
    ([request(1, "no/such")], [(1, -32002)]),
    ([notification("no/such"), HOVER], [(7, -32002)]),
    ([initialize()], [("start", None)]),
    ([initialize(), initialize()], [("start", None), ("start", -32600)]),
    ([initialize(), request(1, "no/such")], [("start", None), (1, -32601)]),
    ([initialize(), request("x", "$/no/such")], [("start", None), ("x", -32601)]),
    ([initialize(), notification("no/such"), notification("$/cancelRequest", id=7)], [("start", None)]),
    ([initialize(), notification("initialized"), HOVER], [("start", None), (7, None)]),
    ([initialize(), opened("fn f() {}"), HOVER], [("start", None), (7, None)]),
    ([initialize(), {"jsonrpc": "2.0", "id": 1, "method": "textDocument/hover"}], [("start", None), (1, -32602)]),
    ([initialize(), opened("fn f() {}"), request(1, "textDocument/hover", textDocument={"uri": NAME})], [("start", None), (1, -32602)]),
    ([initialize(), opened("fn f() {}"), asked(1, "textDocument/hover", -1, 0)], [("start", None), (1, -32602)]),
    ([initialize(), opened("fn f() {}"), asked(1, "textDocument/hover", "0", 0)], [("start", None), (1, -32602)]),
    ([initialize(), request(1, "textDocument/hover", textDocument=3)], [("start", None), (1, -32602)]),
    ([initialize(), request(1, "shutdown"), HOVER], [("start", None), (1, None), (7, -32600)]),
    ([initialize(), request(1, "shutdown"), request(2, "shutdown")], [("start", None), (1, None), (2, -32600)]),
    # Content that is no message.
    (["{"], [(None, -32700)]),
    ([""], [(None, -32700)]),
    ([b"\xff"], [(None, -32700)]),
    (["[" * 100000], [(None, -32700)]),
    (['{"jsonrpc": "2.0"} {}'], [(None, -32700)]),
    (["{}"], [(None, -32600)]),
    (["3"], [(None, -32600)]),
    (["null"], [(None, -32600)]),
    (["[]"], [(None, -32600)]),
    ([[HOVER]], [(None, -32600)]),
    ([{"jsonrpc": "2.0", "id": 1}], [(1, -32600)]),
    ([{"jsonrpc": "2.0", "id": 1, "method": 2}], [(1, -32600)]),
    ([{"jsonrpc": "1.0", "id": 1, "method": "initialize"}], [(1, -32600)]),
    ([{"id": 1, "method": "initialize"}], [(1, -32600)]),
    ([{"jsonrpc": "2.0", "id": [], "method": "initialize"}], [(None, -32600)]),
    ([{"jsonrpc": "2.0", "id": None, "method": "initialize"}], [(None, -32600)]),
    ([{"jsonrpc": "2.0", "id": 1.5, "method": "initialize"}], [(None, -32600)]),
    # A response to a request that the server never sent.
    ([{"jsonrpc": "2.0", "id": 1, "result": None}, {"jsonrpc": "2.0", "id": 2, "error": {"code": 1, "message": ""}}], []),
    # After one that is refused, the next is answered.
    (["{", initialize()], [(None, -32700), ("start", None)]),
)

START = framed(initialize())
CANCEL = framed(notification("$/cancelRequest", id=7))
OPENED = START + framed(opened("fn f() {}"))

# Bytes, and the responses to them.
STREAMS = (
    (START.replace(b"Content-Length", b"content-length"), [("start", None)]),
    (START.replace(b"\r\n", b"\n"), [("start", None)]),
    (START.replace(b"\r\n\r\n", b"\r\nContent-Type: application/vscode-jsonrpc; charset=utf-8\r\n\r\n"), [("start", None)]),
    (b"X: 1\r\n" + START, [("start", None)]),
    (b"\r\n\r\n" + START, [("start", None)]),
    # A header without a length is refused, and the next message is answered.
    (b"X: 1\r\n\r\n" + START, [(None, -32700), ("start", None)]),
    (b"Content-Length: x\r\n\r\n" + START, [(None, -32700), ("start", None)]),
    (b"Content-Length: -1\r\n\r\n" + START, [(None, -32700), ("start", None)]),
    (b"Content-Length: 99999999999999999999\r\n\r\n" + START, [(None, -32700), ("start", None)]),
    (b"Content-Length: 4294967296\r\n\r\n" + START, [(None, -32700), ("start", None)]),
    (b"\xff\xfe\r\n\r\n" + START, [(None, -32700), ("start", None)]),
    (b"x" * 100000 + b"\r\n\r\n" + START, [(None, -32700), ("start", None)]),
    (b"Content-Length: 0\r\n\r\n" + START, [(None, -32700), ("start", None)]),
    # A request that is cancelled before it is answered. The messages come at once.
    (OPENED + framed(HOVER) + CANCEL, [("start", None), (7, -32800)]),
    (OPENED + framed({**HOVER, "id": "a"}) + framed(notification("$/cancelRequest", id="a")), [("start", None), ("a", -32800)]),
    (OPENED + framed(HOVER) + framed({**HOVER, "id": 8}) + CANCEL, [("start", None), (7, -32800), (8, None)]),
    (OPENED + CANCEL + framed(HOVER), [("start", None), (7, None)]),
    (OPENED + framed(HOVER) + framed(notification("$/cancelRequest", id="7")), [("start", None), (7, None)]),
    (OPENED + framed(request(7, "shutdown")) + CANCEL, [("start", None), (7, None)]),
    (framed(HOVER) + CANCEL, [(7, -32002)]),
    # The last message is cut off.
    (START[:-1], []),
    (START[:5], []),
    (b"", []),
)

# Messages after which the input ends, and the exit status.
STATUSES = (
    ([], 1),
    ([initialize()], 1),
    ([initialize(), request(1, "shutdown")], 1),
    ([notification("exit")], 1),
    ([initialize(), notification("exit")], 1),
    ([initialize(), *ending()], 0),
    ([initialize(), *ending(), HOVER], 0),
    ([request(1, "shutdown"), notification("exit")], 1),
)

# The encodings that a client offers, and the one that the server chooses.
ENCODINGS = (
    ((), "utf-16"),
    (("utf-16",), "utf-16"),
    (("utf-8", "utf-16"), "utf-8"),
    (("utf-16", "utf-8"), "utf-16"),
    (("utf-32", "utf-8"), "utf-8"),
    (("utf-32",), "utf-16"),
)

# Arguments, the exit status, and the front of what is printed.
ARGUMENTS = (
    (["--version"], 0, "mbe-lsp "),
    (["--help"], 0, "mbe-lsp: a language server"),
    (["--no-such"], 2, "error: unknown argument `--no-such`"),
)


def responses(out):
    """The responses of an output: each identifier, and the number of the error or None."""
    return [(it["id"], it.get("error", {}).get("code")) for it in parsed(out) if "id" in it]


def test(program):
    for messages, want in RESPONSES:
        ran = program.run_in("/", [], b"".join(map(framed, messages)))
        program.check("responses", messages, responses(ran.out), want)
    for stream, want in STREAMS:
        program.check("streams", stream, responses(program.run_in("/", [], stream).out), want)
    for messages, want in STATUSES:
        program.check("statuses", messages, program.run_in("/", [], b"".join(map(framed, messages))).status, want)
    for offered, want in ENCODINGS:
        found = parsed(program.run_in("/", [], framed(initialize(*offered))).out)
        program.check("encodings", offered, found[0]["result"]["capabilities"]["positionEncoding"], want)
    for words, status, front in ARGUMENTS:
        ran = program.run_in("/", words)
        program.check("arguments", words, (ran.status, (ran.out + ran.err)[:len(front)]), (status, front))
