"""The word watch: a page on this machine alone that shows a scene and draws it again when it is saved."""
import http.server
import json
import os
import signal
import threading
import time
import urllib.parse
import webbrowser

from door.checking import dropped_lines
from door.faults import Stop, whole
from door.looking import history_lines, owners
from door.programs import found, play, program
from door.scenes import MODELS, whole_scene
from door.tracing import pixel_history

POLICY = "default-src 'none'; script-src 'self'; style-src 'self'; connect-src 'self'; base-uri 'none'; frame-ancestors 'none'"
"""What the page may load: its own files alone."""
PAGE = os.path.join(os.path.dirname(os.path.abspath(__file__)), "page")
PARTS = {"/": ("watch.html", "text/html"), "/watch.js": ("watch.js", "text/javascript"), "/watch.css": ("watch.css", "text/css")}
"""The page's own files."""
BESIDE = {".py": (".py",), **{ending: (".mtl", ".ppm", ".png", ".jpg", ".jpeg", ".bin") for ending in MODELS}}
"""What a script or a model may read beside it, by endings."""


class Shown:
    """A scene that was played, with its pictures in a file."""

    def __init__(self, version, scene, played):
        self.version, self.scene, self.played = version, scene, played
        self.lock, self.dropped = threading.Lock(), None

    def pixels(self, frame):
        """The bytes of a frame's picture, without its header."""
        each = self.scene.picture_bytes()
        size = 3 * self.scene.size[0] * self.scene.size[1]
        with self.lock:
            self.played.file.seek(frame * each + each - size)
            return self.played.file.read(size)

    def about(self):
        """What the page wants to know of it."""
        return {
            "version": self.version, "frames": self.scene.frames, "size": self.scene.size, "encoders": self.scene.encoders,
            "notes": self.played.notes, "seconds": round(self.played.seconds, 3), "dropped": self.dropped,
        }


class Watched:
    """The file that is watched: what was drawn of it last, and what is wrong with it now."""

    def __init__(self, path, words):
        self.path, self.words = path, words
        self.news, self.looking = threading.Condition(), threading.Lock()
        self.asked = {"/pixel": 0, "/owners": 0}
        self.count, self.shown, self.fault = 0, None, None

    def marks(self):
        """When the file, and what stands beside it, was saved; changes where one of them was."""
        folder, ending = os.path.dirname(self.path) or ".", os.path.splitext(self.path)[1].lower()
        names = [self.path]
        try:
            names += sorted(os.path.join(folder, name) for name in os.listdir(folder) if name.endswith(BESIDE.get(ending, ())))
        except OSError:
            pass
        return [mark_of(name) for name in names]

    def draw(self):
        """Draws the file as it stands now. A fault leaves the picture before it."""
        shown = fault = None
        try:
            scene = whole_scene(self.path, self.words)
            shown = Shown(self.count + 1, scene, play(scene))
        except Stop as stop:
            fault = stop.message
        with self.news:
            self.count += 1
            self.shown, self.fault = shown or self.shown, fault
            self.news.notify_all()
        if shown and shown.played.dropped:
            self.tell_dropped(shown)

    def tell_dropped(self, shown):
        """Which lines are dropped, once it is known."""
        try:
            shown.dropped = [{"frame": line.frame, "text": line.told(shown.scene)} for line in dropped_lines(shown.scene)]
        except Stop as stop:
            shown.dropped = [{"frame": 0, "text": stop.message}]
        with self.news:
            self.count += 1
            self.news.notify_all()

    def state(self, since):
        """What the page shows; waits some seconds for something newer than SINCE."""
        with self.news:
            self.news.wait_for(lambda: self.count != since, timeout=20)
            shown = self.shown.about() if self.shown else None
            return {"count": self.count, "name": self.path, "fault": self.fault, "shown": shown, "slow": found("gfx_trace") is None}

    def look(self, path, looks):
        """What a look into a frame answers: one at a time, and of those of one path that wait the last one alone. KeyError for the others."""
        with self.news:
            self.asked[path] += 1
            mine = self.asked[path]
        with self.looking:
            if mine != self.asked[path]:
                raise KeyError
            return looks()

    def of_version(self, version):
        """What was drawn last, if it is the one that is asked for."""
        shown = self.shown
        return shown if shown is not None and shown.version == version else None


def mark_of(name):
    """When a file was saved and how long it is; None where it is not there."""
    try:
        found_there = os.stat(name)
    except OSError:
        return (name, None)
    return (name, found_there.st_mtime_ns, found_there.st_size)


def history(shown, frame, x, y):
    """The history of a pixel, as text."""
    strokes = pixel_history(shown.scene, frame, x, y, shown.played.journal)
    return {"lines": [line.strip() for line in history_lines(shown.scene, strokes)]}


def whose(shown, frame, by_encoder):
    """The colour of each pixel's owner, and who has which colour."""
    picture, legend = owners(shown.scene, frame, shown.played.journal, by_encoder)
    return {"legend": [{"color": "#" + color, "pixels": count, "who": who} for color, count, who in legend], "pixels": picture.pixels.hex()}


class Answers(http.server.BaseHTTPRequestHandler):
    """What the page is answered. Only reading requests are, and only of a page that this server gave."""

    watched = None
    protocol_version = "HTTP/1.1"

    def log_message(self, *words):
        """Requests are not told."""

    def do_GET(self):
        """One request."""
        port = self.server.server_address[1]
        if self.headers.get("Host") not in (f"127.0.0.1:{port}", f"localhost:{port}"):
            return self.answer(403, b"this page is for this machine alone", "text/plain")
        where = urllib.parse.urlsplit(self.path)
        asked = {name: values[0] for name, values in urllib.parse.parse_qs(where.query).items()}
        if where.path in PARTS:
            name, kind = PARTS[where.path]
            with open(os.path.join(PAGE, name), "rb") as file:
                return self.answer(200, file.read(), kind + "; charset=utf-8")
        try:
            return self.asked_of(where.path, {name: int(value) for name, value in asked.items()})
        except (KeyError, ValueError):
            return self.answer(404, b"there is no such thing", "text/plain")
        except Stop as stop:
            return self.give({"fault": stop.message})

    def asked_of(self, path, asked):
        """What depends on the scene."""
        if path == "/state":
            return self.give(self.watched.state(asked["since"]))
        shown = self.watched.of_version(asked["version"])
        if shown is None or not 0 <= asked["frame"] < shown.scene.frames:
            raise KeyError
        if path == "/picture":
            return self.answer(200, shown.pixels(asked["frame"]), "application/octet-stream")
        if path == "/pixel":
            return self.give(self.watched.look(path, lambda: history(shown, asked["frame"], asked["x"], asked["y"])))
        if path == "/owners":
            return self.give(self.watched.look(path, lambda: whose(shown, asked["frame"], bool(asked["encoders"]))))
        raise KeyError

    def give(self, thing):
        """Answers with JSON."""
        self.answer(200, json.dumps(thing).encode(), "application/json")

    def answer(self, status, data, kind):
        """Answers with bytes."""
        try:
            self.send_response(status)
            self.send_header("Content-Type", kind)
            self.send_header("Content-Length", str(len(data)))
            self.send_header("Cache-Control", "no-store")
            self.send_header("X-Content-Type-Options", "nosniff")
            self.send_header("Content-Security-Policy", POLICY)
            self.end_headers()
            self.wfile.write(data)
        except (BrokenPipeError, ConnectionResetError):
            pass  # the page was closed


class Watch:
    PASSES_ON = True
    TEXT = """It serves one page on this machine (127.0.0.1 alone) and prints its address. When the file is saved, a script or what stands beside a model
too, it is drawn again. The page has a slider for frames, zooms to pixels, shows the notes, and shows what is wrong with a text over
the last good picture. A click on a pixel says what it goes through; a map shows whose each pixel is, by encoder or by draw.
Ctrl-C ends it. Words behind -- go to the script.

  tools/gfx watch mine.py
  tools/gfx watch --port 8123 --no-browser examples/gears.scene"""

    @staticmethod
    def takes(words):
        words.add_argument("scene", metavar="FILE")
        words.add_argument("--port", type=whole(1, 65535), default=0, metavar="N", help="the port; a free one where it is left out")
        words.add_argument("--no-browser", action="store_true", help="open no browser")

    @staticmethod
    def run(taken):
        if not os.path.isfile(taken.scene):
            raise Stop(f"{taken.scene} is no file that can be watched", 1 if taken.scene != "-" else 2)
        program("gfx_play")
        watched = Watched(taken.scene, taken.passed or ())
        try:
            server = http.server.ThreadingHTTPServer(("127.0.0.1", taken.port), type("OwnAnswers", (Answers,), {"watched": watched}))
        except OSError as fault:
            raise Stop(f"port {taken.port} of 127.0.0.1 can't be had: {fault.strerror}; name another by --port") from None
        server.daemon_threads = True
        threading.Thread(target=server.serve_forever, daemon=True).start()
        address = f"http://127.0.0.1:{server.server_address[1]}/"
        print(f"{address} shows {taken.scene}; Ctrl-C ends it", flush=True)
        if not taken.no_browser:
            webbrowser.open(address)
        signal.signal(signal.SIGTERM, signal.default_int_handler)
        try:
            look_for_ever(watched)
        except KeyboardInterrupt:
            server.shutdown()


def look_for_ever(watched):
    """Draws the file at first and whenever it was saved."""
    marks = None
    while True:
        now = watched.marks()
        if now != marks:
            marks = now
            watched.draw()
        time.sleep(0.15)


WORDS = {"watch": Watch}
