"""Rectangles, images and the fifteen operations, plainly: whole images as rows of samples, by docs/SCRIPT.md."""

# ---- formats: channels, the maximum sample, alpha

FORMATS = {
    name + str(bits): (channels, 2 ** bits - 1, alpha)
    for name, channels, alpha in (("Y", 1, False), ("YA", 2, True), ("RGB", 3, False), ("RGBA", 4, True))
    for bits in (8, 16, 32)
}
POLICIES = ("NONE", "CLAMP", "LOOP", "BLACK", "WHITE")
SIDE = 1 << 24
TILE = 64
EMPTY = (0, 0, 0, 0)


def sample_bytes(kind):
    """The bytes of a sample in a raw file."""
    return FORMATS[kind][1].bit_length() // 8


class Refused(Exception):
    """The cause for which a line is refused."""


# ---- rectangles: x, y, width, height

def rectangle(x, y, w, h):
    return (x, y, w, h) if w > 0 and h > 0 else EMPTY


def spanning(x, y, end_x, end_y):
    return rectangle(x, y, end_x - x, end_y - y)


def meet(a, b):
    return spanning(max(a[0], b[0]), max(a[1], b[1]), min(a[0] + a[2], b[0] + b[2]), min(a[1] + a[3], b[1] + b[3]))


def hull(a, b):
    if not a[2]:
        return b
    if not b[2]:
        return a
    return spanning(min(a[0], b[0]), min(a[1], b[1]), max(a[0] + a[2], b[0] + b[2]), max(a[1] + a[3], b[1] + b[3]))


def includes(a, b):
    return not b[2] or meet(a, b) == b


def grown(a, by):
    return spanning(a[0] - by, a[1] - by, a[0] + a[2] + by, a[1] + a[3] + by) if a[2] else EMPTY


def moved(a, dx, dy):
    return rectangle(a[0] + dx, a[1] + dy, a[2], a[3])


def is_rectangle(a):
    """Whether it is contained in the plane."""
    return -SIDE <= a[0] <= SIDE and -SIDE <= a[1] <= SIDE and a[0] + a[2] <= SIDE and a[1] + a[3] <= SIDE


def in_limits(a):
    return a[2] <= 32768 and a[3] <= 32768 and a[2] * a[3] <= 33554432


def tiles(a):
    """The tiles that meet a rectangle, row by row."""
    if not a[2]:
        return []
    return [
        (column, row)
        for row in range(a[1] // TILE, (a[1] + a[3] - 1) // TILE + 1)
        for column in range(a[0] // TILE, (a[0] + a[2] - 1) // TILE + 1)
    ]


def square(tile):
    return (tile[0] * TILE, tile[1] * TILE, TILE, TILE)


# ---- images: a box, a format, and rows of samples

class Image:
    def __init__(self, box, kind, rows):
        self.box, self.kind, self.rows = box, kind, rows

    @staticmethod
    def blank(box, kind):
        return Image(box, kind, [[0] * (box[2] * FORMATS[kind][0]) for _ in range(box[3])])

    def cut(self, part, policy="NONE"):
        """The samples of a rectangle, whose outside is read under a policy."""
        channels, top, alpha = FORMATS[self.kind]
        x, y, w, h = self.box
        outside = {"WHITE": [top] * channels, "BLACK": [0] * (channels - alpha) + [top] * alpha}.get(policy, [0] * channels)
        if policy in ("CLAMP", "LOOP") and not w:
            policy = "NONE"
        if policy == "LOOP":
            columns = [(column - x) % w for column in range(part[0], part[0] + part[2])]
        elif policy == "CLAMP":
            columns = [min(max(column - x, 0), w - 1) for column in range(part[0], part[0] + part[2])]
        rows = []
        for row in range(part[1], part[1] + part[3]):
            if policy == "LOOP":
                row = (row - y) % h + y
            elif policy == "CLAMP":
                row = min(max(row, y), y + h - 1)
            if not y <= row < y + h:
                rows.append(outside * part[2])
                continue
            line = self.rows[row - y]
            if policy in ("CLAMP", "LOOP"):
                rows.append([line[column * channels + c] for column in columns for c in range(channels)])
                continue
            inner = spanning(max(part[0], x), 0, min(part[0] + part[2], x + w), 1)
            if not inner[2]:
                rows.append(outside * part[2])
                continue
            first = (inner[0] - x) * channels
            rows.append(
                outside * (inner[0] - part[0])
                + line[first:first + inner[2] * channels]
                + outside * (part[0] + part[2] - inner[0] - inner[2])
            )
        return Image(part, self.kind, rows)

    def raw(self):
        width = sample_bytes(self.kind)
        if width == 1:
            return b"".join(bytes(row) for row in self.rows)
        return b"".join(sample.to_bytes(width, "little") for row in self.rows for sample in row)

    def put(self, part, rows):
        """Writes the samples of a rectangle of the box."""
        channels = FORMATS[self.kind][0]
        first = (part[0] - self.box[0]) * channels
        for index, row in enumerate(rows):
            line = self.rows[part[1] - self.box[1] + index]
            line[first:first + part[2] * channels] = row

    def copy(self):
        return Image(self.box, self.kind, [row[:] for row in self.rows])

    def level(self, level):
        image = self
        for _ in range(level):
            image = image.halved()
        return image

    def halved(self):
        x, y, w, h = self.box
        channels = FORMATS[self.kind][0]
        box = spanning(x // 2, y // 2, -(-(x + w) // 2), -(-(y + h) // 2)) if w else EMPTY
        doubled = self.cut((box[0] * 2, box[1] * 2, box[2] * 2, box[3] * 2))
        rows = []
        for row in range(box[3]):
            up, down = doubled.rows[2 * row], doubled.rows[2 * row + 1]
            rows.append([
                (up[i] + up[i + channels] + down[i] + down[i + channels] + 2) // 4
                for column in range(box[2])
                for i in range(2 * column * channels, (2 * column + 1) * channels)
            ])
        return Image(box, self.kind, rows)

    def pixels(self, row):
        channels = FORMATS[self.kind][0]
        line = self.rows[row]
        return [line[i:i + channels] for i in range(0, len(line), channels)]


def from_raw(part, kind, data):
    width = sample_bytes(kind)
    if width > 1:
        data = [int.from_bytes(data[i:i + width], "little") for i in range(0, len(data), width)]
    length = part[2] * FORMATS[kind][0]
    return [list(data[row * length:(row + 1) * length]) for row in range(part[3])]


def by_color(image, change):
    """Changes each color, of a cap; alpha stays."""
    channels, top, alpha = FORMATS[image.kind]
    rows = []
    for row in range(image.box[3]):
        if not alpha:
            rows.append([change(color, top) for color in image.rows[row]])
            continue
        line = []
        for pixel in image.pixels(row):
            line.extend(change(color, pixel[-1]) for color in pixel[:-1])
            line.append(pixel[-1])
        rows.append(line)
    return Image(image.box, image.kind, rows)


def converted(image, kind):
    from_channels, from_top, from_alpha = FORMATS[image.kind]
    channels, top, alpha = FORMATS[kind]
    rows = []
    for row in range(image.box[3]):
        line = []
        for pixel in image.pixels(row):
            colors = pixel[:from_channels - from_alpha]
            if len(colors) == 1 and channels >= 3:
                colors = colors * 3
            elif len(colors) == 3 and channels < 3:
                colors = [(sum(colors) + 1) // 3]
            if alpha:
                colors = colors + [pixel[-1] if from_alpha else from_top]
            if from_top < top:
                colors = [v * (top // from_top) for v in colors]
            elif from_top > top:
                colors = [(v * top + from_top // 2) // from_top for v in colors]
            line.extend(colors)
        rows.append(line)
    return Image(image.box, kind, rows)


def windows(image, box, radius, policy, combine, finish):
    """Combines the windows of all pixels of a box, first along rows and then along columns."""
    channels = FORMATS[image.kind][0]
    read = image.cut(grown(box, radius), policy)
    side = 2 * radius + 1
    along = []
    for row in read.rows:
        planes = [combine(row[c::channels], side) for c in range(channels)]
        along.append([planes[c][i] for i in range(box[2]) for c in range(channels)])
    columns = [combine(column, side) for column in zip(*along)] if along else []
    return Image(box, image.kind, [[finish(column[row]) for column in columns] for row in range(box[3])])


def sums(line, side):
    total = sum(line[:side])
    found = [total]
    for index in range(side, len(line)):
        total += line[index] - line[index - side]
        found.append(total)
    return found


def extremes(pick):
    return lambda line, side: [pick(line[i:i + side]) for i in range(len(line) - side + 1)]


# ---- operations: a word, its arguments, the names of its inputs

AREAS = ("box", "dilate", "erode")


def shape_of(op, shapes):
    """The format and the box of an operation's result, of those of its inputs."""
    word, *rest = op
    kinds = [shape[0] for shape in shapes]
    boxes = [shape[1] for shape in shapes]
    kind, box = (kinds[0], boxes[0]) if kinds else (None, None)
    suits = True
    if word == "color":
        kind, box, samples = rest
        suits = len(samples) == FORMATS[kind][0] and max(samples) <= FORMATS[kind][1]
    elif word == "checker":
        kind, box = rest[:2]
        suits = max(rest[3:]) <= FORMATS[kind][1]
    elif word == "convert":
        kind = rest[0]
    elif word == "threshold":
        suits = rest[0] <= FORMATS[kind][1]
    elif word == "add":
        suits = kinds[0] == kinds[1]
    elif word == "over":
        suits = kinds[0] == kinds[1] and FORMATS[kind][2]
    elif word == "mask":
        suits = FORMATS[kinds[1]][0] == 1 and FORMATS[kinds[1]][1] == FORMATS[kind][1]
    if not suits:
        raise Refused("Formats")
    if word == "translate":
        box = moved(box, *rest) if box[2] else box
    elif word == "crop" or word == "mask":
        box = meet(box, rest[0] if word == "crop" else boxes[1])
    elif word in AREAS and rest[1] == "NONE":
        box = grown(box, rest[0])
    elif word in ("add", "over"):
        box = hull(*boxes)
    if not is_rectangle(box) or not in_limits(box):
        raise Refused("Bounds")
    return kind, box


def image_of(op, inputs):
    """The image that an operation gives of those of its inputs."""
    word, *rest = op
    kind, box = shape_of(op, [(image.kind, image.box) for image in inputs])
    channels, top, alpha = FORMATS[kind]
    image = inputs[0] if inputs else None
    if word == "color":
        return Image(box, kind, [list(rest[2]) * box[2] for _ in range(box[3])])
    if word == "checker":
        _, _, size, even, odd = rest
        pixel = [[v] * (channels - alpha) + [top] * alpha for v in (even, odd)]
        return Image(box, kind, [
            [s for x in range(box[0], box[0] + box[2]) for s in pixel[(x // size + y // size) % 2]]
            for y in range(box[1], box[1] + box[3])
        ])
    if word == "convert":
        return converted(image, kind)
    if word == "invert":
        return by_color(image, lambda c, cap: max(cap - c, 0))
    if word == "threshold":
        return by_color(image, lambda c, cap: cap if c >= rest[0] else 0)
    if word == "gain":
        num, den = rest
        return by_color(image, lambda c, cap: min(cap, (c * num + den // 2) // den))
    if word == "translate":
        return Image(box, kind, image.rows)
    if word == "crop":
        return image.cut(box)
    if word == "flip":
        if rest[0] == "v":
            return Image(box, kind, image.rows[::-1])
        return Image(box, kind, [[s for pixel in image.pixels(row)[::-1] for s in pixel] for row in range(box[3])])
    if word == "box":
        count = (2 * rest[0] + 1) ** 2
        return windows(image, box, rest[0], rest[1], sums, lambda total: (total + count // 2) // count)
    if word in AREAS:
        pick = extremes(max if word == "dilate" else min)
        return windows(image, box, rest[0], rest[1], pick, lambda found: found)
    first, second = (other.cut(box) for other in inputs)
    rows = []
    for row in range(box[3]):
        if word == "add":
            rows.append([min(top, a + b) for a, b in zip(first.rows[row], second.rows[row])])
            continue
        line = []
        for a, b in zip(first.pixels(row), second.pixels(row)):
            if word == "over":
                line.extend(min(top, s + (d * (top - a[-1]) + top // 2) // top) for s, d in zip(a, b))
            else:
                line.extend((s * b[0] + top // 2) // top for s in a)
        rows.append(line)
    return Image(box, kind, rows)


def read_for(op, box, part):
    """What of an input of a box a part of the result reads."""
    word, *rest = op
    if not part[2]:
        return EMPTY
    if word == "translate":
        part = moved(part, -rest[0], -rest[1])
    elif word == "flip":
        part = mirrored(rest[0], box, part)
    elif word in AREAS:
        part = grown(part, rest[0])
        if rest[1] == "CLAMP" and box[2]:
            x, y, w, h = box
            column = lambda value: min(max(value, x), x + w - 1)
            row = lambda value: min(max(value, y), y + h - 1)
            part = spanning(column(part[0]), row(part[1]), column(part[0] + part[2] - 1) + 1, row(part[1] + part[3] - 1) + 1)
    return meet(part, box)


def mirrored(way, box, part):
    if way == "h":
        return rectangle(2 * box[0] + box[2] - part[0] - part[2], part[1], part[2], part[3])
    return rectangle(part[0], 2 * box[1] + box[3] - part[1] - part[3], part[2], part[3])


def reached_from(op, box, part, result):
    """What of the result a change of a part of an input reaches."""
    word, *rest = op
    part = meet(part, box)
    if not part[2]:
        return EMPTY
    if word == "translate":
        part = moved(part, *rest)
    elif word == "flip":
        part = mirrored(rest[0], box, part)
    elif word in AREAS:
        part = grown(part, rest[0])
    return meet(part, result)
