"""A server in front of a server of profhouse, which does what it is told to before it forwards: for tests of clients."""
import contextlib
import http.client
import http.server
import threading


class Unruly(http.server.BaseHTTPRequestHandler):
    """Takes one word for each request: `503` and the like, `close`, `lost`, `html`, `moved` or `ok`."""

    def do(self):
        self.server.seen.append((self.command, self.path, self.headers.get("Authorization")))
        word = self.server.words.pop(0) if self.server.words else "ok"
        body = self.rfile.read(int(self.headers.get("Content-Length", "0")))
        if word == "close":
            self.close_connection = True
        elif word.isdigit():
            self.answer(int(word), b"<html>a proxy says so</html>", "text/html")
        elif word == "html":
            self.answer(200, b"<html>sign in</html>", "text/html")
        elif word == "moved":
            self.answer(302, b"", "text/html", Location="https://elsewhere/")
        else:
            status, text = self.forwarded(body)
            if word == "ok":
                self.answer(status, text, "text/plain; charset=utf-8")

    def forwarded(self, body):
        connection = http.client.HTTPConnection(self.server.behind)
        with contextlib.closing(connection):
            connection.request(self.command, self.path.removeprefix("/profiles"), body or None, {"Content-Length": str(len(body))})
            answer = connection.getresponse()
            return answer.status, answer.read()

    def answer(self, status, text, kind, **fields):
        self.send_response(status)
        for name, value in {"Content-Type": kind, "Content-Length": str(len(text)), **fields}.items():
            self.send_header(name, value)
        self.end_headers()
        self.wfile.write(text)

    do_GET = do_POST = do_PUT = do_DELETE = do

    def log_message(self, *_):
        pass


@contextlib.contextmanager
def unruly(address, *words):
    """A server in front of that at `address`. It has `port`, the `words` that are left, and what was `seen`."""
    with http.server.ThreadingHTTPServer(("127.0.0.1", 0), Unruly) as server:
        server.behind, server.words, server.seen = address.removeprefix("http://"), list(words), []
        server.port = server.server_port
        threading.Thread(target=server.serve_forever, daemon=True).start()
        try:
            yield server
        finally:
            server.shutdown()
