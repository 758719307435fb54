"""The words golden and rerun: what scenes drew is kept, and asked for again here or on another machine."""
import concurrent.futures
import os
import subprocess
import tempfile
import time

from door.difference import Difference, heat, line_of
from door.faults import FRAME, Stop, many, read_bytes, whole, write_bytes
from door.junit import report
from door.pictures import pictures_of_file, png
from door.programs import play, program
from door.scenes import Scene


class Kept:
    """The files beside a scene: its notes, its journal, the sum of each picture, perhaps the pictures."""

    def __init__(self, path):
        if not path.endswith(".scene"):
            raise Stop(f"the name of {path} does not end with .scene", 2)
        self.path, self.base = path, path[: -len(".scene")]

    def read(self, ending):
        """The bytes of one of the files, or None where it is not there."""
        name = self.base + ending
        return read_bytes(name) if os.path.exists(name) else None

    def sums(self):
        """The sum of each frame's picture."""
        data = self.read(".sums")
        if data is None:
            raise Stop(f"nothing is kept of {self.path}: there is no {self.base}.sums; `tools/gfx golden record {self.path}` writes it")
        sums = data.decode("ascii", "replace").split("\n")
        if sums.pop() or not sums or not all(len(it) == 64 and set(it) <= set("0123456789abcdef") for it in sums):
            raise Stop(f"{self.base}.sums is broken: wanted is a line of 64 hexadecimal digits for each frame")
        return sums

    def journal(self, scene):
        """The journal by which the scene is drawn again: none where it has one encoder, for then there is but one."""
        if scene.encoders == 1:
            return None
        data = self.read(".journal")
        if data is None:
            raise Stop(f"there is no {self.base}.journal: the scene has {scene.encoders} encoders, and their order was not kept; record it again")
        return data

    def picture(self, frame):
        """The picture that was kept of a frame, or None."""
        name = f"{self.base}-{frame}.png"
        return next(pictures_of_file(name)) if os.path.exists(name) else None

    def scene(self):
        """The scene itself."""
        return Scene(self.path, read_bytes(self.path))


def record(path, with_pictures):
    """Plays a scene and keeps what it drew. Where the play fails nothing is written."""
    kept = Kept(path)
    scene = kept.scene()
    played = play(scene)
    sums, files = [], {}
    for frame, picture in enumerate(played.pictures()):
        sums.append(picture.sum())
        if with_pictures:
            files[f"{kept.base}-{frame}.png"] = png(picture)
    files[kept.base + ".notes"] = "".join(note + "\n" for note in played.notes).encode()
    if scene.encoders > 1:
        files[kept.base + ".journal"] = played.journal
    files[kept.base + ".sums"] = "".join(it + "\n" for it in sums).encode()
    for name, data in files.items():
        write_bytes(name, data)
    return f"recorded {path}: {many(len(sums), 'frame')}"


class Fault(Exception):
    """A scene that does not draw what was kept: what differs, a line each."""


def again(kept):
    """Draws a scene again, as it was recorded."""
    scene = kept.scene()
    return scene, play(scene, kept.journal(scene))


def check_own(kept, taken):
    """Draws a scene again and compares it with what was kept."""
    sums, (_, played) = kept.sums(), again(kept)
    wrong, count, near = [], 0, False
    for frame, picture in enumerate(played.pictures()):
        count += 1
        if frame < len(sums) and picture.sum() != sums[frame]:
            wrong += told_own(kept, frame, picture, sums[frame], taken)
            near = True
    if count != len(sums):
        wrong.append(f"there are {count} frames, and {len(sums)} were recorded")
    notes = kept.read(".notes")
    if notes is not None and notes.decode("ascii", "replace").splitlines() != played.notes:
        lines = zip(notes.decode("ascii", "replace").splitlines() + ["no more frames"], played.notes + ["no more frames"])
        then, now = next(((then, now) for then, now in lines if then != now), ("another number of frames", f"{count} frames"))
        wrong.append(f"the notes differ: `{now}` now, `{then}` then")
    if wrong:
        raise Fault("\n".join(wrong))
    return f"{many(count, 'frame')}, " + (f"within {taken.near}" if near else "the same")


def told_own(kept, frame, picture, wanted, taken):
    """How a picture with another sum differs from the one that was kept, if that is there."""
    golden = kept.picture(frame)
    if golden is None:
        return [f"frame {frame} differs in its sum; `tools/gfx golden record --pictures` keeps pictures, which say where"]
    if golden.sum() != wanted:
        name = f"{kept.base}-{frame}.png"
        return [f"frame {frame} differs in its sum; {name} does not say where, for it is not the picture of that sum: record again with --pictures"]
    return told(kept, frame, picture, golden, taken)


def told(kept, frame, picture, golden, taken):
    """How a picture differs from the one that is wanted; none where it is near enough."""
    line = line_of(frame, picture, golden, taken.near)
    if line and taken.heat and " sides " not in line:
        os.makedirs(taken.heat, exist_ok=True)
        name = os.path.normpath(kept.base).replace(os.sep, "-").lstrip(".-")
        write_bytes(os.path.join(taken.heat, f"{name}-{frame}.png"), png(heat(golden, Difference(picture, golden, taken.near))))
    return [line] if line else []


def check_other(kept, taken):
    """Has another renderer draw the scene, and compares its pictures with this one's."""
    _, played = again(kept)
    with tempfile.TemporaryDirectory(prefix="gfx-") as room:
        out = os.path.join(room, "out.ppm")
        journal = os.path.join(room, "journal")
        write_bytes(journal, played.journal)
        drawn(taken.by, kept.path, out, journal)
        others = pictures_of_file(out)
        wrong, count = [], 0
        for frame, picture in enumerate(played.pictures()):
            count += 1
            other = next(others, None)
            if other is None:
                raise Fault(f"it drew {frame} frames, and {len(played.notes)} were wanted")
            wrong += told(kept, frame, other, picture, taken)
        if next(others, None) is not None:
            wrong.append(f"it drew more than {count} frames")
    if wrong:
        raise Fault("\n".join(wrong))
    return f"{many(count, 'frame')}, " + (f"within {taken.near}" if taken.near else "the same")


def drawn(command, scene, out, journal):
    """Runs another renderer's command; {scene}, {out} and {journal} stand for the files."""
    if "{scene}" not in command or "{out}" not in command:
        raise Stop("--by wants a command with {scene} and {out} in it, as --by 'renderer {scene} > {out}'", 2)
    line = command.replace("{scene}", quoted(scene)).replace("{out}", quoted(out)).replace("{journal}", quoted(journal))
    ended = subprocess.run(["sh", "-c", line], stdin=subprocess.DEVNULL, stdout=subprocess.DEVNULL, stderr=subprocess.PIPE)
    if ended.returncode:
        said = ended.stderr.decode(errors="replace").strip().splitlines()
        raise Fault(f"the command ended with status {ended.returncode}" + (f": {said[-1]}" if said else ""))


def quoted(name):
    """A name as one word of the shell."""
    return "'" + name.replace("'", "'\\''") + "'"


def scenes_in(places):
    """The scenes that are named, and those of the folders that are, in the order of their names."""
    found = []
    for place in places:
        if os.path.isdir(place):
            inside = sorted(os.path.join(at, name) for at, _, names in os.walk(place) for name in names if name.endswith(".scene"))
            if not inside:
                raise Stop(f"no scene stands in the folder {place}")
            found += inside
        elif os.path.exists(place):
            found.append(place)
        else:
            raise Stop(f"{place} is not there")
    return found


class Golden:
    TEXT = """`record` plays each scene of the folders and keeps beside NAME.scene

  NAME.sums      the SHA-256 sum of each frame's picture
  NAME.notes     the lines of the frames
  NAME.journal   the order in which the encoders' items came, where there are several encoders
  NAME-K.png     the picture of frame K, with --pictures alone

`check` draws each scene again by its journal, here or on another machine, and compares. Status 0: all are the same. A scene of which
nothing is kept is a failure, and so is a folder without a scene. With --by another renderer draws each scene into {out}, as P6
pictures behind each other, and is compared with the pictures that this program draws by the noted journal; {journal} stands for its file.

  tools/gfx golden record --pictures scenes/
  tools/gfx golden check --junit golden.xml --heat heat scenes/
  tools/gfx golden check --by 'my_renderer {scene} > {out}' --near 2 scenes/"""

    @staticmethod
    def takes(words):
        words.add_argument("deed", choices=("record", "check"), metavar="record|check")
        words.add_argument("places", nargs="+", metavar="FOLDER|SCENE")
        words.add_argument("--pictures", action="store_true", help="record: keep the pictures too")
        words.add_argument("--junit", metavar="OUT.xml", help="check: write the answers as JUnit XML, which GitHub, GitLab and Jenkins show")
        words.add_argument("--heat", metavar="FOLDER", help="check: write where pictures differ into this folder")
        words.add_argument("--near", type=whole(0, 255), default=0, metavar="N", help="check: differences up to N in a channel do not count; 0")
        words.add_argument("--by", metavar="COMMAND", help="check: another renderer's command, with {scene} and {out} in it")
        words.add_argument("--jobs", type=whole(1, 256), default=os.cpu_count() or 1, metavar="N", help="so many scenes at a time; as many as there are processors")

    @staticmethod
    def run(taken):
        for name in ("junit", "heat", "near", "by") if taken.deed == "record" else ("pictures",):
            if getattr(taken, name):
                raise Stop(f"--{name} is not for {taken.deed}", 2)
        scenes = scenes_in(taken.places)
        program("gfx_play")
        with concurrent.futures.ThreadPoolExecutor(taken.jobs) as threads:
            answers = []
            for answer in threads.map(lambda path: answer_of(path, taken), scenes):
                answers.append(answer)
                print(answer.line(taken.deed), flush=True)
        failed = sum(answer.wrong is not None for answer in answers)
        if taken.deed == "check":
            print(f"{many(len(answers), 'scene')}, {failed} failed")
        if taken.junit:
            write_bytes(taken.junit, report(answers))
        return 1 if failed else 0


class Answer:
    """What was found of one scene: `wrong` is None where all is well, and `broken` says that it could not be tried."""

    def __init__(self, path, said, wrong, broken, seconds):
        self.path, self.said, self.wrong, self.broken, self.seconds = path, said, wrong, broken, seconds

    def line(self, deed):
        """What is said of it."""
        if self.wrong is None:
            return self.said if deed == "record" else f"ok   {self.path}: {self.said}"
        return f"FAIL {self.path}: " + self.wrong.replace("\n", "\n     ")


def answer_of(path, taken):
    """Does the deed with one scene."""
    start, said, wrong, broken = time.monotonic(), None, None, False
    try:
        said = record(path, taken.pictures) if taken.deed == "record" else (check_other if taken.by else check_own)(Kept(path), taken)
    except Fault as fault:
        wrong = str(fault)
    except Stop as stop:
        if stop.status == 2:
            raise
        wrong, broken = stop.message, True
    return Answer(path, said, wrong, broken, time.monotonic() - start)


class Rerun:
    TEXT = """Beside NAME.scene it reads what `tools/gfx golden record` wrote, here or on another machine. Status 0 where the sums agree.

  tools/gfx rerun --out frame-2.ppm many/0000.scene 2"""

    @staticmethod
    def takes(words):
        words.add_argument("scene", metavar="SCENE")
        words.add_argument("frame", type=FRAME, metavar="FRAME", help="which frame, counted from 0")
        words.add_argument("--out", metavar="OUT.ppm", help="write the picture as well")

    @staticmethod
    def run(taken):
        kept = Kept(taken.scene)
        scene, sums = kept.scene(), kept.sums()
        if taken.frame >= min(scene.frames, len(sums)):
            raise Stop(f"{taken.scene} has no frame {taken.frame}: it has {scene.frames}, counted from 0, and {len(sums)} were kept")
        _, played = again(kept)
        picture = next(picture for frame, picture in enumerate(played.pictures()) if frame == taken.frame)
        if taken.out:
            write_bytes(taken.out, picture.p6())
        now, then = picture.sum(), sums[taken.frame]
        if now != then:
            raise Stop(f"frame {taken.frame} of {taken.scene} differs: {now} now, {then} then")
        print(f"frame {taken.frame} of {taken.scene} is the same: {now}")


WORDS = {"golden": Golden, "rerun": Rerun}
