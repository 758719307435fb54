"""Pictures: read from P6 and PNG, written as P6 and PNG, put side by side, shown in a terminal. No package is needed."""
import hashlib
import itertools
import struct
import zlib

from door.faults import Stop

MARK = b"\x89PNG\r\n\x1a\n"


class Picture:
    """Width, height, and three bytes for each pixel, row by row from the top."""

    def __init__(self, width, height, pixels):
        self.width, self.height, self.pixels = width, height, pixels

    def sides(self):
        """Width and height."""
        return self.width, self.height

    def row(self, y):
        """The bytes of one row."""
        return self.pixels[3 * self.width * y : 3 * self.width * (y + 1)]

    def color(self, x, y):
        """The three bytes of one pixel."""
        at = 3 * (self.width * y + x)
        return self.pixels[at : at + 3]

    def p6(self):
        """The picture in the P6 form of Netpbm, as the program writes it."""
        return b"P6\n%d %d\n255\n" % (self.width, self.height) + self.pixels

    def sum(self):
        """The SHA-256 sum of that form."""
        return hashlib.sha256(self.p6()).hexdigest()


# ---------------------------------------------------------------- P6


def read_pictures(file, name):
    """The pictures of a stream, one at a time."""
    for number in itertools.count():
        if not (first := file.read(1)):
            return
        yield read_p6(file, first, f"picture {number} of {name}")


def read_p6(file, first, name):
    """One picture of a stream of which FIRST was read."""
    if first + file.read(1) != b"P6":
        raise Stop(f"{name} is no picture in the P6 form of Netpbm")
    fields = [p6_field(file, name) for _ in range(3)]
    if not all(field.isdigit() and len(field) < 8 for field in fields):
        raise Stop(f"{name} is no picture in the P6 form of Netpbm")
    width, height, most = (int(field) for field in fields)
    if most != 255 or not width or not height:
        raise Stop(f"{name} has sides of {width} by {height} and channels up to {most}; wanted are channels up to 255")
    pixels = file.read(3 * width * height)
    if len(pixels) != 3 * width * height:
        raise Stop(f"{name} is cut off: it has {len(pixels)} of {3 * width * height} bytes of pixels")
    return Picture(width, height, pixels)


def p6_field(file, name):
    """The next field of a header, with the one white byte behind it; a comment is passed over."""
    field = b""
    while True:
        byte = file.read(1)
        if byte == b"":
            raise Stop(f"{name} is cut off in its header")
        if byte == b"#" and not field:
            file.readline()
        elif byte in b" \t\r\n":
            if field:
                return field
        else:
            field += byte
            if len(field) > 20:
                raise Stop(f"{name} is no picture in the P6 form of Netpbm")


# ---------------------------------------------------------------- PNG


def chunk(name, data):
    """A part of a PNG."""
    return struct.pack(">I", len(data)) + name + data + struct.pack(">I", zlib.crc32(name + data))


def differences(row, before):
    """ROW less BEFORE, byte by byte."""
    return bytes((a - b) & 255 for a, b in zip(row, before))


def filtered(width, height, pixels):
    """The rows as PNG has them: as they are, less the pixel to the left, or less the row above, whichever packs best."""
    step = 3 * width
    rows = [pixels[at : at + step] for at in range(0, step * height, step)]
    above = [bytes(step), *rows]
    forms = [
        b"".join(b"\0" + row for row in rows),
        b"".join(b"\1" + differences(row, bytes(3) + row) for row in rows),
        b"".join(b"\2" + differences(row, up) for row, up in zip(rows, above)),
    ]
    return min((zlib.compress(form, 9) for form in forms), key=len)


def by_palette(width, height, pixels, colors):
    """The PNG's parts of a picture of at most 256 colours."""
    colors = sorted(colors)
    bits = next(bits for bits in (1, 2, 4, 8) if len(colors) <= 1 << bits)
    place = {color: number for number, color in enumerate(colors)}
    rows = []
    for y in range(height):
        numbers = [place[pixels[at : at + 3]] for at in range(3 * width * y, 3 * width * (y + 1), 3)]
        numbers += [0] * (-width % (8 // bits))
        if bits == 8:
            packed = bytes(numbers)
        else:
            packed = bytes(sum(number << (8 - bits - bits * k) for k, number in enumerate(numbers[at : at + 8 // bits])) for at in range(0, len(numbers), 8 // bits))
        rows.append(b"\0" + packed)
    head = chunk(b"IHDR", struct.pack(">IIBBBBB", width, height, bits, 3, 0, 0, 0))
    return head + chunk(b"PLTE", b"".join(colors)) + chunk(b"IDAT", zlib.compress(b"".join(rows), 9))


def few_colors(pixels):
    """The colours of the pixels where there are at most 256, else None."""
    colors = set()
    for at in range(0, len(pixels), 3):
        colors.add(pixels[at : at + 3])
        if len(colors) > 256:
            return None
    return colors


def png(picture):
    """The picture as PNG, each byte of it: with a palette where it has at most 256 colours."""
    width, height, pixels = picture.width, picture.height, picture.pixels
    colors = few_colors(pixels)
    if colors is None:
        head = chunk(b"IHDR", struct.pack(">IIBBBBB", width, height, 8, 2, 0, 0, 0))
        body = head + chunk(b"IDAT", filtered(width, height, pixels))
    else:
        body = by_palette(width, height, pixels, colors)
    return MARK + body + chunk(b"IEND", b"")


def png_chunks(data, name):
    """The parts of a PNG by name; several IDAT are joined."""
    parts, at = {}, len(MARK)
    while at + 12 <= len(data):
        size, kind = struct.unpack(">I4s", data[at : at + 8])
        parts[kind] = parts.get(kind, b"") + data[at + 8 : at + 8 + size]
        at += 12 + size
    if at != len(data) or b"IHDR" not in parts or b"IDAT" not in parts or len(parts[b"IHDR"]) != 13:
        raise Stop(f"{name} is a PNG that is cut off or broken")
    return parts


def read_png(data, name):
    """The picture of a PNG with 8 bits a channel or a palette. Alpha is passed over."""
    parts = png_chunks(data, name)
    width, height, bits, kind, _, _, woven = struct.unpack(">IIBBBBB", parts[b"IHDR"])
    channels = {0: 1, 2: 3, 3: 1, 4: 2, 6: 4}.get(kind)
    if channels is None or woven or bits > 8 or (bits < 8 and kind != 3):
        raise Stop(f"{name} is a PNG of a form that is not read: wanted are 8 bits a channel or a palette, not interlaced")
    step = (width * channels * bits + 7) // 8
    try:
        raw = zlib.decompress(parts[b"IDAT"])
    except zlib.error:
        raw = b""
    if len(raw) != (step + 1) * height:
        raise Stop(f"{name} is a PNG whose pixels are cut off or broken")
    rows = unfiltered(raw, step, height, max(1, channels * bits // 8), name)
    return Picture(width, height, b"".join(rgb_row(row, width, kind, bits, channels, parts.get(b"PLTE", b""), name) for row in rows))


def unfiltered(raw, step, height, back, name):
    """The rows of a PNG; BACK is how many bytes to the left a pixel's neighbour stands."""
    above, rows = bytearray(step), []
    for y in range(height):
        form, row = raw[(step + 1) * y], bytearray(raw[(step + 1) * y + 1 : (step + 1) * (y + 1)])
        if form > 4:
            raise Stop(f"{name} is a PNG with a broken row {y}")
        for k in range(step if form else 0):
            left, up, corner = (row[k - back] if k >= back else 0), above[k], (above[k - back] if k >= back else 0)
            row[k] = (row[k] + (0, left, up, (left + up) // 2, paeth(left, up, corner))[form]) & 255
        rows.append(row)
        above = row
    return rows


def paeth(left, up, corner):
    """The neighbour that is nearest to left + up - corner, as the PNG specification has it."""
    away = left + up - corner
    return min((left, up, corner), key=lambda it: abs(away - it))


def rgb_row(row, width, kind, bits, channels, palette, name):
    """Three bytes a pixel of one row of a PNG."""
    if kind == 3:
        numbers = row if bits == 8 else [row[k * bits // 8] >> (8 - bits - k * bits % 8) & ((1 << bits) - 1) for k in range(width)]
        if max(numbers) * 3 + 3 > len(palette):
            raise Stop(f"{name} is a PNG with a colour that its palette lacks")
        return b"".join(palette[3 * number : 3 * number + 3] for number in numbers)
    if kind in (2, 6):
        return b"".join(bytes(row[at : at + 3]) for at in range(0, width * channels, channels))
    return b"".join(bytes([row[at]]) * 3 for at in range(0, width * channels, channels))


def pictures_of_file(path):
    """The pictures of a file of P6 pictures or of a PNG."""
    try:
        with open(path, "rb") as file:
            start = file.read(8)
            file.seek(0)
            if start == MARK:
                yield read_png(file.read(), path)
            elif start == b"":
                raise Stop(f"{path} is empty: no picture stands in it")
            else:
                yield from read_pictures(file, path)
    except OSError as fault:
        raise Stop(f"{path} can't be read: {fault.strerror}") from None


# ---------------------------------------------------------------- put together and shown


def beside(pictures):
    """The pictures side by side, as one. They have one height."""
    rows = (b"".join(picture.row(y) for picture in pictures) for y in range(pictures[0].height))
    return Picture(sum(picture.width for picture in pictures), pictures[0].height, b"".join(rows))


def enlarged(picture, times):
    """Each pixel as TIMES by TIMES of them."""
    rows = []
    for y in range(picture.height):
        row = picture.row(y)
        rows.append(b"".join(row[at : at + 3] * times for at in range(0, len(row), 3)) * times)
    return Picture(picture.width * times, picture.height * times, b"".join(rows))


def in_terminal(picture, columns, lines):
    """The picture as text of half blocks in colours of 24 bits, within so many columns and lines. A pixel is the middle one of its part."""
    wide = min(columns, picture.width, max(1, 2 * lines * picture.width // picture.height))
    high = max(2, round(picture.height * wide / picture.width / 2) * 2)
    rows = []
    for y in range(0, high, 2):
        cells = []
        for x in range(wide):
            column = (2 * x + 1) * picture.width // (2 * wide)
            upper, lower = (picture.color(column, min(picture.height - 1, (2 * at + 1) * picture.height // (2 * high))) for at in (y, y + 1))
            cells.append("\x1b[38;2;%d;%d;%dm\x1b[48;2;%d;%d;%dm\u2580" % (*upper, *lower))
        rows.append("".join(cells) + "\x1b[0m\n")
    return "".join(rows)
