"""Pictures for textures: PNG and Netpbm's forms are read here, JPEG through Netpbm (the Debian package netpbm) where it is there."""
import os
import shutil
import subprocess
import zlib

MOST_SIDE = 16_384
"""The longest side of a picture that is read."""


class PictureFault(Exception):
    """What is wrong with a picture, without its name."""


class Picture:
    """Width, height, and four bytes for each pixel, row by row from the top."""

    def __init__(self, width, height, data):
        self.width, self.height, self.data = width, height, bytes(data)

    def within(self, side):
        """The picture with both sides at most SIDE: halved as often as it takes, each pixel the mean of two by two."""
        made = self
        while made.width > side or made.height > side:
            made = made.halved(made.width > side, made.height > side)
        return made

    def halved(self, across, down):
        planes = []
        for channel in range(4):
            plane, width = self.data[channel::4], self.width
            rows = [plane[at : at + width] for at in range(0, len(plane), width)]
            if across:
                rows = [bytes((a + b + 1) // 2 for a, b in zip(row[0 : width // 2 * 2 : 2], row[1::2])) for row in rows]
            if down:
                rows = [bytes((a + b + 1) // 2 for a, b in zip(one, other)) for one, other in zip(rows[0 : len(rows) // 2 * 2 : 2], rows[1::2])]
            planes.append(b"".join(rows))
        data = bytearray(4 * len(planes[0]))
        for channel in range(4):
            data[channel::4] = planes[channel]
        return Picture(self.width // 2 if across else self.width, self.height // 2 if down else self.height, data)


def sides(width, height):
    if not (1 <= width <= MOST_SIDE and 1 <= height <= MOST_SIDE):
        raise PictureFault(f"it is {width} by {height}; pictures of 1 to {MOST_SIDE} pixels a side are read")


def read_picture(data):
    """The picture of a file's bytes."""
    if data[:8] == b"\x89PNG\r\n\x1a\n":
        return read_png(data)
    if data[:2] in (b"P2", b"P3", b"P5", b"P6"):
        return read_netpbm(data)
    if data[:3] == b"\xff\xd8\xff":
        if not shutil.which("jpegtopnm"):
            raise PictureFault("it is a JPEG, and the tool jpegtopnm is missing; it is in the Debian package netpbm")
        made = subprocess.run(["jpegtopnm"], input=data, capture_output=True)
        if made.returncode:
            raise PictureFault("jpegtopnm can't read it")
        return read_netpbm(made.stdout)
    raise PictureFault("it is no PNG, JPEG or PPM")


def load(path):
    """The picture of a file."""
    if not os.path.isfile(path):
        raise PictureFault("there is no such file")
    try:
        with open(path, "rb") as file:
            return read_picture(file.read())
    except OSError as error:
        raise PictureFault(error.strerror) from None


def from_channels(width, height, channels, values):
    """The picture of so many VALUES for each pixel: grey, grey and alpha, colour, or colour and alpha."""
    data = bytearray(b"\xff" * (4 * width * height))
    for place in range(4):
        source = {1: (0, 0, 0, None), 2: (0, 0, 0, 1), 3: (0, 1, 2, None), 4: (0, 1, 2, 3)}[channels][place]
        if source is not None:
            data[place::4] = values[source::channels]
    return Picture(width, height, data)


# ---------------------------------------------------------------- Netpbm


def read_netpbm(data):
    """A picture in Netpbm's forms P2, P3, P5 and P6 with bytes."""
    kind, at, head = data[:2], 2, []
    try:
        while len(head) < 3:
            while data[at : at + 1].isspace() or data[at : at + 1] == b"#":
                at = data.index(b"\n", at) + 1 if data[at : at + 1] == b"#" else at + 1
            end = at
            while data[end : end + 1].isdigit():
                end += 1
            head.append(int(data[at:end]))
            at = end
        width, height, most = head
        sides(width, height)
        channels = 3 if kind in (b"P3", b"P6") else 1
        count = width * height * channels
        values = data[at + 1 : at + 1 + count] if kind in (b"P5", b"P6") else [int(word) for word in data[at:].split()[:count]]
    except (ValueError, IndexError):
        raise PictureFault("the picture is broken") from None
    if not 1 <= most <= 255 or len(values) < count or max(values) > most:
        raise PictureFault("the picture is broken, or has more than a byte for a channel")
    return from_channels(width, height, channels, bytes(value * 255 // most for value in values))


# ---------------------------------------------------------------- PNG

CHANNELS = {0: 1, 2: 3, 3: 1, 4: 2, 6: 4}
"""How many numbers a pixel has, by the kind of colour."""
PASSES = [(0, 0, 8, 8), (4, 0, 8, 8), (0, 4, 4, 8), (2, 0, 4, 4), (0, 2, 2, 4), (1, 0, 2, 2), (0, 1, 1, 2)]
"""Of each pass of an interlaced picture: its first column and row, and the steps of both."""


def read_png(data):
    """The picture of a PNG, of any kind that the format has; of 16 bits a channel the upper eight are taken."""
    chunks, at = {}, 8
    while at + 8 <= len(data):
        size, name = int.from_bytes(data[at : at + 4], "big"), data[at + 4 : at + 8]
        chunks[name] = chunks.get(name, b"") + data[at + 8 : at + 8 + size]
        at += 12 + size
    head = chunks.get(b"IHDR", b"")
    if len(head) != 13 or b"IDAT" not in chunks:
        raise PictureFault("the picture is broken: a part is missing")
    width, height = int.from_bytes(head[0:4], "big"), int.from_bytes(head[4:8], "big")
    depth, kind, interlaced = head[8], head[9], head[12]
    sides(width, height)
    if kind not in CHANNELS or depth not in (1, 2, 4, 8, 16) or interlaced > 1:
        raise PictureFault("the picture is of no kind that PNG has")
    channels = CHANNELS[kind]
    passes = PASSES if interlaced else [(0, 0, 1, 1)]
    shapes = [((width - x + dx - 1) // dx, (height - y + dy - 1) // dy) for x, y, dx, dy in passes]
    wanted = sum((1 + (w * channels * depth + 7) // 8) * h for w, h in shapes if w)
    try:
        raw = zlib.decompressobj().decompress(chunks[b"IDAT"], wanted)
    except zlib.error:
        raise PictureFault("the picture is broken: it can't be unpacked") from None
    if len(raw) < wanted:
        raise PictureFault("the picture is broken: rows are missing")
    values, start = bytearray(width * height * channels), 0
    for (x, y, dx, dy), (w, h) in zip(passes, shapes):
        if not w:
            continue
        for row, numbers in enumerate(rows_of(raw, start, w, h, channels, depth)):
            first = ((y + row * dy) * width + x) * channels
            for channel in range(channels):
                values[first + channel : first + (w - 1) * dx * channels + channel + 1 : dx * channels] = numbers[channel::channels]
        start += (1 + (w * channels * depth + 7) // 8) * h
    return colored(width, height, kind, depth, bytes(values), chunks)


def rows_of(raw, start, width, height, channels, depth):
    """The numbers of each row of a pass, a byte each, its filter undone."""
    step, size = max(1, channels * depth // 8), (width * channels * depth + 7) // 8
    above = bytearray(size)
    for row in range(height):
        at = start + row * (size + 1)
        line, way = bytearray(raw[at + 1 : at + 1 + size]), raw[at]
        if way > 4:
            raise PictureFault("the picture is broken: a row has no known filter")
        unfiltered(line, above, way, step)
        above = line
        if depth == 16:
            yield line[0::2]
        elif depth == 8:
            yield line
        else:
            mask = (1 << depth) - 1
            yield bytes(byte >> shift & mask for byte in line for shift in range(8 - depth, -1, -depth))[: width * channels]


def unfiltered(line, above, way, step):
    """Undoes a row's filter in place."""
    if way == 2:
        line[:] = bytes((a + b) & 255 for a, b in zip(line, above))
    elif way:
        for k in range(len(line)):
            left, corner = (line[k - step], above[k - step]) if k >= step else (0, 0)
            if way == 1:
                guess = left
            elif way == 3:
                guess = (left + above[k]) // 2
            else:
                near = left + above[k] - corner
                guess = min((abs(near - left), 0, left), (abs(near - above[k]), 1, above[k]), (abs(near - corner), 2, corner))[2]
            line[k] = (line[k] + guess) & 255


def colored(width, height, kind, depth, values, chunks):
    """The picture of a PNG's numbers: palettes looked up, small numbers made bytes, a colour that stands for nothing made clear."""
    clear = chunks.get(b"tRNS")
    if kind == 3:
        palette = [(chunks.get(b"PLTE", b"")[3 * k : 3 * k + 3] + b"\0\0\0")[:3] + (clear or b"")[k : k + 1].ljust(1, b"\xff") for k in range(256)]
        return Picture(width, height, b"".join(map(palette.__getitem__, values)))
    scale = 255 // ((1 << min(depth, 8)) - 1)
    picture = from_channels(width, height, CHANNELS[kind], bytes(value * scale for value in values) if scale > 1 else values)
    if clear and kind in (0, 2) and len(clear) >= 2 * CHANNELS[kind]:
        # with 16 bits a channel it is compared by the upper eight
        key = [clear[2 * k] if depth == 16 else clear[2 * k + 1] for k in range(CHANNELS[kind])]
        key = bytes(part * scale & 255 for part in (key * 3 if kind == 0 else key))
        data = bytearray(picture.data)
        for at in range(0, len(data), 4):
            if data[at : at + 3] == key:
                data[at + 3] = 0
        picture = Picture(width, height, data)
    return picture
