"""Sessions of the Language Server Protocol with `mbe-lsp`: all messages are its standard input, and its replies are parsed."""
import json
import os
import re
import tempfile

from programs import write

# The name of a document that is on no disk.
NAME = "file:///no-such-folder/a.rs"


def framed(message):
    """A message with its header. A text is content as it is."""
    content = message if isinstance(message, (str, bytes)) else json.dumps(message)
    content = content if isinstance(content, bytes) else content.encode()
    return b"Content-Length: %d\r\n\r\n%s" % (len(content), content)


def parsed(out):
    """The messages of an output. Whatever is no message is an error."""
    out = out if isinstance(out, bytes) else out.encode()
    messages = []
    while out:
        head, found, rest = out.partition(b"\r\n\r\n")
        length = re.fullmatch(rb"Content-Length: (\d+)", head)
        if not found or not length or int(length[1]) > len(rest):
            raise ValueError(f"no message: {out[:200]!r}")
        messages.append(json.loads(rest[:int(length[1])]))
        out = rest[int(length[1]):]
    return messages


def request(number, method, **params):
    return {"jsonrpc": "2.0", "id": number, "method": method, "params": params}


def notification(method, **params):
    return {"jsonrpc": "2.0", "method": method, "params": params}


def initialize(*encodings):
    general = {"general": {"positionEncodings": list(encodings)}} if encodings else {}
    return request("start", "initialize", processId=None, rootUri=None, capabilities=general)


def opened(text, uri=NAME, version=1):
    return notification("textDocument/didOpen", textDocument={"uri": uri, "languageId": "rust", "version": version, "text": text})


def changed(changes, uri=NAME, version=2):
    """A change of a document: a list of new texts, or of pairs of a range `((LINE, COLUMN), (LINE, COLUMN))` and a text."""
    events = [{"text": it} if isinstance(it, str) else {"range": ranged(*it[0]), "text": it[1]} for it in changes]
    return notification("textDocument/didChange", textDocument={"uri": uri, "version": version}, contentChanges=events)


def placed(line, column):
    return {"line": line, "character": column}


def ranged(start, end):
    return {"start": placed(*start), "end": placed(*end)}


def asked(number, method, line, column, uri=NAME):
    """A request on a position of a document."""
    return request(number, method, textDocument={"uri": uri}, position=placed(line, column))


def actions(number, line, column, uri=NAME):
    """A request for the code actions at a position."""
    here = ranged((line, column), (line, column))
    return request(number, "textDocument/codeAction", textDocument={"uri": uri}, range=here, context={"diagnostics": []})


def ending():
    return [request("end", "shutdown"), notification("exit")]


def replies(program, messages, files=None):
    """The replies to messages, with those that begin and end a session around them.

    `files` are the files of a folder; then `messages` is a function of the folder's path, which returns the messages.
    """
    with tempfile.TemporaryDirectory() as folder:
        for path, text in (files or {}).items():
            write(folder, path, text)
        told = messages(os.path.realpath(folder)) if files else messages
        ran = program.run_in(folder, [], b"".join(map(framed, [initialize(), *told, *ending()])))
        return parsed(ran.out), ran


def results(found):
    """The results of requests by their identifiers, without those that begin and end a session."""
    return {it["id"]: it.get("result", it.get("error")) for it in found if "id" in it and it["id"] not in ("start", "end")}


def published(found, uri=NAME):
    """The diagnostics that were published last on a document."""
    given = [it["params"] for it in found if it.get("method") == "textDocument/publishDiagnostics" and it["params"]["uri"] == uri]
    return given[-1]["diagnostics"] if given else None


def short(diagnostics):
    """Diagnostics as tuples: the start, the end, the severity and the message."""
    return [(at(it["range"]["start"]), at(it["range"]["end"]), it["severity"], it["message"]) for it in diagnostics]


def at(position):
    return position["line"], position["character"]
