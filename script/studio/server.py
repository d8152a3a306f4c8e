"""The server of the studio: it hands out the page's files, and what the page asks it hands to runs of the program. Nothing but the standard library."""
import contextlib
import hmac
import json
import os
import re
import secrets
import shutil
import socket
import sys
import tempfile
import threading
from http.server import BaseHTTPRequestHandler, ThreadingHTTPServer

import ask
from studio_runs import Busy, Run, Runs, Stopped

HERE = os.path.dirname(os.path.realpath(__file__))
ADDRESS = "127.0.0.1"
KINDS = {".html": "text/html; charset=utf-8", ".css": "text/css; charset=utf-8", ".js": "text/javascript; charset=utf-8", ".svg": "image/svg+xml"}
# The most bytes of a question and of a strategy file, connections at a time, and seconds of a run, and how long a request may take to come.
MOST_BODY, MOST_FILE, MOST_CONNECTIONS, MOST_SECONDS, PATIENCE = 1 << 14, 1 << 28, 64, 86400, 10
WORD = re.compile(r"[a-z0-9_]{1,32}")
NAME = re.compile(r"[a-z0-9_]{1,32}")
MOST_WORDS = 6
POLICY = ["default-src 'none'", "script-src 'self'", "style-src 'self'", "img-src 'self' data: blob:", "connect-src 'self'", "base-uri 'none'", "form-action 'none'",
          "frame-ancestors 'none'"]
# What each answer's head has.
FIELDS = {"Content-Security-Policy": "; ".join(POLICY), "X-Content-Type-Options": "nosniff", "Referrer-Policy": "no-referrer", "Cache-Control": "no-store",
          "Cross-Origin-Resource-Policy": "same-origin", "Connection": "close"}
BUSY = b'HTTP/1.0 503 Busy\r\nContent-Type: application/json\r\nConnection: close\r\n\r\n{"why": "too many requests at a time"}'


class Refused(Exception):
    """A request is refused: with this status of HTTP, for this reason."""

    def __init__(self, status, why):
        super().__init__(why)
        self.status, self.why = status, why


class Studio:
    """What all requests share: the token, the program and its runs, and the files of the page."""

    def __init__(self, program, kind, about, folder):
        self.token, self.runs = secrets.token_urlsafe(24), Runs(program, folder)
        self.facts = {**ask.facts(), "kind": kind, "about": about, "processors": self.runs.most}
        self.files = {name: f"{HERE}/page/{name}" for name in os.listdir(f"{HERE}/page") if os.path.splitext(name)[1] in KINDS}

    def kept(self, name):
        """Returns the path of a strategy file."""
        if not NAME.fullmatch(name):
            raise Refused(400, "a file's name has 1 to 32 of the letters a to z, digits and _")
        return f"{self.runs.folder}/{name}"


class Handler(BaseHTTPRequestHandler):
    timeout = PATIENCE
    server_version, sys_version = "studio", ""
    # Whether all of the request is read, and whether an answer is begun.
    is_taken = is_begun = False

    def do_GET(self):
        self.answer({"": self.page, "facts": self.get_facts, "files": self.get_files, "file": self.get_file})

    def do_POST(self):
        self.answer({it.__name__: it for it in (self.run, self.say, self.read, self.why, self.solution, self.branches, self.notation)})

    def do_PUT(self):
        self.answer({"file": self.put_file})

    def answer(self, known):
        """Answers a request, or refuses it."""
        try:
            head, *path = self.admitted()
            if head not in known and (len(path) or self.command != "GET" or head not in self.studio.files):
                raise Refused(404, "there is nothing of this name")
            known.get(head, lambda: self.page(head))(*path)
        except Refused as why:
            self.refuse(why.status, why.why)
        except Busy:
            self.refuse(503, f"{self.studio.runs.most} programs run, as many as there are processors: wait for one, or cancel one")
        except Stopped as why:
            self.refuse(504, f"ended: {why}")
        except ask.chess.Refused as why:
            self.refuse(400, f"the text is refused at line {why.number}: {why.why}")
        except (ConnectionError, TimeoutError):
            self.close_connection = True
        except Exception as why:
            print(f"studio: {type(why).__name__}: {why}", file=sys.stderr)
            self.refuse(500, f"the server fails at this request: {type(why).__name__}")

    def admitted(self):
        """Returns the parts of the path after the token, if the request is one of the page's."""
        port = self.server.server_address[1]
        hosts = [f"{it}:{port}" for it in (ADDRESS, "localhost")]
        if self.headers.get_all("Host", []) not in [[it] for it in hosts]:
            raise Refused(421, "this server is no such host")
        if self.headers.get("Origin") not in [None, *[f"http://{it}" for it in hosts]]:
            raise Refused(403, "the request comes from another page")
        parts = self.path.split("/")
        if len(parts) < 3 or not hmac.compare_digest(parts[1].encode(), self.studio.token.encode()):
            raise Refused(403, "the token is missing or wrong: open the address that ./studio printed")
        if len(parts) > 4:
            raise Refused(404, "there is nothing of this name")
        return parts[2:]

    def length(self, most):
        word = self.headers.get("Content-Length", "")
        if "Transfer-Encoding" in self.headers or not re.fullmatch("[0-9]{1,12}", word):
            raise Refused(411, "the length of the request is missing")
        if int(word) > most:
            raise Refused(413, f"the request is longer than {most} bytes")
        return int(word)

    def asked(self, **kinds):
        """Returns fields of the question, of these kinds."""
        try:
            data = self.rfile.read(self.length(MOST_BODY))
            self.is_taken = True
            found = json.loads(data)
            fields = [found.get(it) for it in kinds]
            # A lone half of a letter can be spelled in JSON, and is no text.
            "".join(it for it in fields if type(it) is str).encode()
        except (ValueError, AttributeError, RecursionError):
            raise Refused(400, "the question is no object of JSON") from None
        for (name, kind), it in zip(kinds.items(), fields):
            if type(it) is not kind:
                raise Refused(400, f"the field {name} is missing or of another kind")
        return fields

    # What is handed out

    def page(self, name="index.html"):
        with open(self.studio.files[name], "rb") as it:
            self.send(200, KINDS[os.path.splitext(name)[1]], it.read())

    def get_facts(self):
        self.send_json(self.studio.facts)

    def get_files(self):
        made = []
        for name in sorted(os.listdir(self.studio.runs.folder)):
            path = self.studio.kept(name) if NAME.fullmatch(name) else None
            if path and os.path.isfile(path):
                try:
                    moves, position = ask.explain.read_head(path)
                    made.append({"name": name, "bytes": os.path.getsize(path), "moves": moves, "position": ask.described(position, ask.chess.POSITIONS)})
                except ValueError as why:
                    made.append({"name": name, "bytes": os.path.getsize(path), "why": str(why)})
        self.send_json(made)

    def get_file(self, name=""):
        path = self.studio.kept(name)
        if not os.path.isfile(path):
            raise Refused(404, "there is no such file")
        with open(path, "rb") as it:
            self.head(200, "application/octet-stream", os.path.getsize(path))
            shutil.copyfileobj(it, self.wfile)

    def put_file(self, name=""):
        path, left = self.studio.kept(name), self.length(MOST_FILE)
        with tempfile.TemporaryDirectory(dir=self.studio.runs.folder, prefix="-") as folder:
            with open(f"{folder}/{name}", "wb") as it:
                while left and (data := self.rfile.read(min(left, 1 << 16))):
                    it.write(data)
                    left -= len(data)
            if left:
                raise Refused(400, "the file ends too early")
            os.replace(f"{folder}/{name}", path)
        self.send_json({"name": name})

    # Questions

    def seconds(self, seconds):
        if not 1 <= seconds <= MOST_SECONDS:
            raise Refused(400, f"the time limit goes from 1 to {MOST_SECONDS} seconds")
        return seconds

    def run(self):
        """Runs the program, and sends what it writes as it comes, a line of JSON for each line, and signs of life."""
        words, text, seconds, is_live = self.asked(words=list, text=str, seconds=int, isLive=bool)
        if not 1 <= len(words) <= MOST_WORDS or not all(type(it) is str and WORD.fullmatch(it) for it in words):
            raise Refused(400, "a word of the command has 1 to 32 of the letters a to z, digits and _")
        if words[0] not in self.studio.facts["commands"]:
            raise Refused(400, f"{words[0]} is no command of the program")
        runs = self.studio.runs
        seconds = self.seconds(seconds)
        runs.take_place()
        try:
            with Run(runs, words, text.encode(), seconds, is_live) as run:
                self.head(200, "application/x-ndjson")
                self.event(run=run.name)
                for it in run.events(self.connection):
                    if isinstance(it, bytes):
                        self.event(line=it.decode("utf-8", "replace"))
                    else:
                        self.event(seconds=round(it, 1), memory=round(run.memory(), 1))
                code, told = run.process.returncode, run.told.decode("utf-8", "replace")
                self.event(code=code, sentences=ask.explain.sentences(code, told, words, run.text, runs.folder))
        except Stopped as why:
            self.event(stopped=str(why))
        finally:
            runs.give_place()

    def say(self):
        name, line = self.asked(run=str, line=str)
        run = self.studio.runs.live.get(name)
        if run is None or not run.is_live:
            raise Refused(404, "this run has ended")
        if "\n" in line or len(line) > ask.chess.LINE:
            raise Refused(400, f"a reply is one line of at most {ask.chess.LINE} bytes")
        run.say(line.encode() + b"\n")
        self.send_json({})

    def read(self):
        self.send_json(ask.read(self.studio.runs, *self.asked(text=str), self.connection))

    def notation(self):
        text, form = self.asked(text=str, form=str)
        try:
            self.send_json(ask.notation(text, form))
        except ValueError as why:
            self.send_json({"refused": str(why)})

    def why(self):
        text, noun, number, move = self.asked(text=str, noun=str, number=int, move=list)
        is_number = lambda it: type(it) is str and len(it) < 30 and ask.chess.NUMBER.fullmatch(it)
        if noun not in ("reply", "move") or len(move) != 3 or not all(map(is_number, move)):
            raise Refused(400, "a move is a man's number and a square")
        self.send_json({"sentence": ask.why_illegal(text, noun, number, [int(it) for it in move])})

    def solution(self):
        """Sends the lines of ./solve as they come."""
        text, moves, budget, seconds, depth, tries = self.asked(text=str, moves=int, budget=str, seconds=int, depth=int, tries=bool)
        with self.place(budget, seconds, moves, depth) as engine:
            self.head(200, "application/x-ndjson")
            try:
                for it in ask.solution(engine, text, moves, depth, tries):
                    self.event(line=it)
                self.event(code=0, sentences=[])
            except ask.solve.Ended as end:
                self.event(line=end.line.strip())
                self.event(code=end.code, sentences=ask.explain.sentences(end.code, end.line, end.words, end.text))
            except Stopped as why:
                self.event(stopped=str(why))

    def branches(self):
        text, moves, budget, seconds = self.asked(text=str, moves=int, budget=str, seconds=int)
        with self.place(budget, seconds, moves, 1) as engine:
            try:
                self.send_json(ask.branches(engine, text, moves))
            except ask.solve.Ended as end:
                self.send_json({"told": end.line.strip(), "sentences": ask.explain.sentences(end.code, end.line, end.words, end.text)})

    def place(self, budget, seconds, moves, depth):
        """Returns an engine that has the place of one run."""
        if not re.fullmatch("[1-9][0-9]{0,7}", budget) or not 0 <= moves <= 20 or not 1 <= depth <= 20:
            raise Refused(400, "the budget, the number of moves or the depth is outside its limits")
        return ask.Placed(self.studio.runs, [budget], self.seconds(seconds), self.connection)

    # Writing

    def head(self, status, kind, length=None):
        self.is_begun = True
        self.send_response(status)
        fields = {**FIELDS, "Content-Type": kind} if length is None else {**FIELDS, "Content-Type": kind, "Content-Length": length}
        for name, it in fields.items():
            self.send_header(name, it)
        self.end_headers()

    def send(self, status, kind, data):
        self.head(status, kind, len(data))
        self.wfile.write(data)

    def send_json(self, it, status=200):
        self.send(status, "application/json", json.dumps(it).encode())

    def event(self, **fields):
        self.wfile.write(json.dumps(fields).encode() + b"\n")
        self.wfile.flush()

    def refuse(self, status, why):
        """Says why a request is refused, and takes what still comes of it, so that the answer is not lost. An answer that is begun ends."""
        if self.is_begun:
            return
        try:
            self.send_json({"why": why}, status)
            self.connection.shutdown(socket.SHUT_WR)
            self.connection.settimeout(1)
            left = 0 if self.is_taken else 1 << 25
            while left > 0 and (data := self.connection.recv(1 << 16)):
                left -= len(data)
        except OSError:
            pass

    def log_message(self, *_):
        """Says nothing of requests: the address has the token in it."""


class Server(ThreadingHTTPServer):
    daemon_threads, request_queue_size = True, 256

    def __init__(self, port):
        super().__init__((ADDRESS, port), Handler)
        self.places = threading.BoundedSemaphore(MOST_CONNECTIONS)

    def process_request(self, request, client_address):
        if not self.places.acquire(blocking=False):
            try:
                request.settimeout(1)
                request.sendall(BUSY)
            except OSError:
                pass
            return self.shutdown_request(request)
        return super().process_request(request, client_address)

    def process_request_thread(self, request, client_address):
        try:
            super().process_request_thread(request, client_address)
        finally:
            self.places.release()

    def handle_error(self, request, client_address):
        """Says nothing of a connection that broke."""


@contextlib.contextmanager
def prepared(server, program, kind, about):
    """Makes what the requests share, and gives the address of the page. After the block all runs have ended."""
    with tempfile.TemporaryDirectory(prefix="studio-") as folder:
        studio = Handler.studio = Studio(program, kind, about, folder)
        try:
            yield f"http://{ADDRESS}:{server.server_address[1]}/{studio.token}/"
        finally:
            studio.runs.end_all()
