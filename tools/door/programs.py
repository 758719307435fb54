"""Finds the programs of this repository, runs them, and says in words how they ended."""
import os
import re
import subprocess
import sys
import tempfile
import time

from door.faults import Stop, many
from door.pictures import read_pictures

TOP = os.path.dirname(os.path.dirname(os.path.dirname(os.path.abspath(__file__))))
ENDS = {
    1: "its words were refused; this is a fault of tools/gfx or of an older program",
    3: "the scene could not be read",
    4: "a picture could not be written; is the disk full?",
    5: "the notes could not be written; is the disk full?",
    6: "the scene is longer than the 16,777,216 bytes that are read; make it shorter or split it",
    7: "the journal does not belong to the scene",
    8: "memory was wanting",
    9: "the scene has no such frame",
    10: "the picture has no such pixel",
}
"""How a program ended, by its status."""


def found(name):
    """The path of a program, or None: the one that a variable names, the proved one, or the build that is not proved."""
    named = os.environ.get(name.upper())
    if named:
        return named
    for place in (f"crates/{name}/out/{name}", f"build/{name}"):
        if os.access(os.path.join(TOP, place), os.X_OK):
            return os.path.join(TOP, place)
    return None


told = set()


def program(name):
    """The path of a program that has to be there. Says once where it is one that is not proved."""
    path = found(name)
    if path is None:
        slowly = f"; GFX_PLAY={os.path.join(TOP, 'tools', 'try', 'slow_play')} draws slowly by Python alone" if name == "gfx_play" else ""
        builds = f"`tools/bench/build --out build {name}` at the top of the repository builds it in a minute or two, unproved"
        raise Stop(f"there is no program {name}; {builds}{slowly}")
    if not os.access(path, os.X_OK) or os.path.isdir(path):
        raise Stop(f"{path}, which the variable {name.upper()} names, is no program that can be run")
    if not os.environ.get(name.upper()) and path == os.path.join(TOP, "build", name) and name not in told:
        told.add(name)
        print(f"gfx: build/{name} is not proved; `rt run` in crates/{name} proves and builds it", file=sys.stderr)
    return path


SLOW = {"gfx_check": "slow_check", "gfx_trace": "slow_trace", "gfx_play": "slow_play"}
"""The programs of the second implementation, by the name of the one whose place they take."""


def second(name, lack=None):
    """The path of the second implementation's program. LACK says why it takes a program's place; that is told once."""
    if lack and (name, lack) not in told:
        told.add((name, lack))
        print(f"gfx: {name} {lack}, so tools/try/{SLOW[name]} takes its place, the second implementation, which is slow", file=sys.stderr)
    return os.path.join(TOP, "tools", "try", SLOW[name])


def debugger(name):
    """The path of a program that looks into a scene, else of the second implementation's, which one line says."""
    return second(name, "is not built") if found(name) is None else program(name)


class Refused(Stop):
    """The text is no scene: the first line at fault and its cause."""

    def __init__(self, scene, line, cause):
        from door.explain import fault_text

        super().__init__(fault_text(scene, line, cause))
        self.line, self.cause = line, cause


class Played:
    """What a play gave: `file` with its pictures one behind the other, the lines of its notes, and the journal's text."""

    def __init__(self, file, notes, journal, seconds):
        self.file, self.notes, self.journal, self.seconds = file, notes, journal, seconds

    def pictures(self):
        """The pictures, one at a time."""
        self.file.seek(0)
        return read_pictures(self.file, "the program's output")

    @property
    def dropped(self):
        """How many lines were dropped, for each frame with some."""
        counts = [re.match(r"frame (\d+) items \d+ dropped (\d+)$", line) for line in self.notes]
        return {int(count[1]): int(count[2]) for count in counts if count and count[2] != "0"}


def run_over(path, words, text, out, meanwhile=None):
    """Runs a program over a text, its output into the file OUT; answers its status and what it put on standard error."""
    with tempfile.TemporaryFile() as given, tempfile.TemporaryFile() as said:
        given.write(text)
        given.seek(0)
        try:
            process = subprocess.Popen([path, *words], stdin=given, stdout=out, stderr=said)
        except OSError as fault:
            raise Stop(f"{path} can't be run: {fault.strerror}") from None
        try:
            while meanwhile and process.poll() is None:
                meanwhile()
                time.sleep(0.05)
            status = process.wait()
        finally:
            if process.poll() is None:
                process.kill()
                process.wait()
        said.seek(0)
        return status, said.read().decode("ascii", "replace")


def stream_over(path, words, text, see):
    """Runs a program over a text and hands SEE each picture that it writes, as it comes; answers its status and what it put on standard error."""
    with tempfile.TemporaryFile() as given, tempfile.TemporaryFile() as said:
        given.write(text)
        given.seek(0)
        try:
            process = subprocess.Popen([path, *words], stdin=given, stdout=subprocess.PIPE, stderr=said)
        except OSError as fault:
            raise Stop(f"{path} can't be run: {fault.strerror}") from None
        cut = None
        try:
            for picture in read_pictures(process.stdout, f"the output of {os.path.basename(path)}"):
                see(picture)
        except Stop as stop:
            cut = stop
        finally:
            process.stdout.close()
            status = process.wait()
        if cut is not None and status == 0:
            raise cut
        said.seek(0)
        return status, said.read().decode("ascii", "replace")


def judge(scene, name, status, said):
    """Raises what a status other than 0 means."""
    if status == 0:
        return
    refused = re.match(r"scene refused at line (\d+) for cause (\d+)", said)
    if refused:
        raise Refused(scene, int(refused[1]), int(refused[2]))
    journal = re.match(r"journal refused at entry (\d+)", said)
    if journal:
        raise Stop(f"the journal does not belong to {scene.path}: it is refused at entry {journal[1]}, counted from 0")
    if status < 0:
        raise Stop(f"{name} was ended by signal {-status} over {scene.path}")
    raise Stop(f"{name} ended with status {status} over {scene.path}: {ENDS.get(status, said.strip() or 'it said nothing')}")


def play(scene, journal=None, out=None, meanwhile=None):
    """Plays a scene on threads, or by a journal's text; its pictures go into OUT, or into a file that goes away."""
    path, out = program("gfx_play"), out or tempfile.TemporaryFile()
    start = time.monotonic()
    words, text = (["play", "--journal"], scene.text) if journal is None else (["replay", "--journal"], scene.text + journal)
    status, said = run_over(path, words, text, out, meanwhile)
    judge(scene, "gfx_play", status, said)
    lines = said.splitlines()
    notes = [line for line in lines if line.startswith("frame ")]
    if len(notes) != scene.frames or os.fstat(out.fileno()).st_size < scene.frames * scene.picture_bytes():
        raise Stop(f"{path} ended with status 0 over {scene.path} and has not written its pictures and notes; is it gfx_play?")
    kept = "".join(line + "\n" for line in lines if line.startswith("j")).encode()
    return Played(out, notes, kept, time.monotonic() - start)


def tell_dropped(scene, played):
    """Says on standard error how many lines were dropped, where some were."""
    if played.dropped:
        frames = list(played.dropped)
        where = f"frame {frames[0]}" if len(frames) == 1 else f"{len(frames)} frames, the first is {frames[0]}"
        print(f"gfx: dropped: {many(sum(played.dropped.values()), 'line')} in {where}; `tools/gfx check {scene.path}` says which", file=sys.stderr)
