"""What the lines of a script do, plainly, by docs/SCRIPT.md and docs/DEFINITIONS.md: states are whole images, and of the
cached tiles only which there are is known."""

import re

from plain_images import (
    EMPTY, FORMATS, Image, Refused, TILE, from_raw, hull, image_of, includes, is_rectangle, meet, moved, reached_from,
    read_for, rectangle, sample_bytes, shape_of, square, tiles,
)

# ---- states: buffers are (root, extent), roots are images, nodes are (name, op or buffer, inputs)

class State:
    def __init__(self, roots, buffers, nodes):
        self.roots, self.buffers, self.nodes = roots, buffers, nodes
        self.images = {}
        self.shapes = {}

    def buffer_shape(self, name):
        root, extent = self.buffers[name]
        return self.roots[root].kind, extent

    def shape(self, name):
        return self.shapes.get(name, (None, EMPTY))

    def node(self, name):
        return next((node for node in self.nodes if node[0] == name), None)

    def image(self, name):
        if name not in self.images:
            _, op, inputs = self.node(name)
            if op[0] == "source":
                root, extent = self.buffers[op[1]]
                self.images[name] = self.roots[root].cut(extent)
            else:
                self.images[name] = image_of(op, [self.image(other) for other in inputs])
        return self.images[name]


class Session:
    """What the lines of a script do, one after another."""

    def __init__(self, files, capacity):
        self.files, self.capacity = files, capacity
        self.roots, self.buffers = {}, {}
        self.pending, self.written = [], {}
        self.state = State({}, {}, [])
        self.number = 0
        self.undoable, self.redoable = [], []
        self.cached = {}
        self.applied = self.reused = 0
        self.text = []

    # -- buffers

    def find(self, name):
        if name not in self.buffers:
            raise Refused("UnknownBuffer")
        root, extent = self.buffers[name]
        return self.roots[root], extent, root

    def add(self, name):
        if name in self.buffers:
            raise Refused("NameTaken")
        if len(self.buffers) == 64:
            raise Refused("TooManyBuffers")

    def buffer(self, name, kind, part):
        self.add(name)
        self.roots[name] = Image.blank(part, kind)
        self.buffers[name] = (name, part)

    def sub(self, name, parent, part):
        _, extent, root = self.find(parent)
        self.add(name)
        self.buffers[name] = (root, meet(part, extent))

    def dup(self, name, other):
        root, extent, _ = self.find(other)
        self.add(name)
        self.roots[name] = root
        self.buffers[name] = (name, extent)

    def write(self, root, part, rows):
        # A root is shared with states and duplicates until it is written.
        self.roots[root] = self.roots[root].copy()
        self.roots[root].put(part, rows)
        self.written[root] = hull(self.written.get(root, EMPTY), part)

    def load(self, name, part, file):
        image, extent, root = self.find(name)
        if not includes(extent, part):
            raise Refused("OutOfBounds")
        if file not in self.files:
            raise Refused("Absent")
        data = self.files[file]
        if len(data) != part[2] * part[3] * FORMATS[image.kind][0] * sample_bytes(image.kind):
            raise Refused("WrongSize")
        self.write(root, part, from_raw(part, image.kind, data))

    def fill(self, name, part, samples):
        image, extent, root = self.find(name)
        if not includes(extent, part):
            raise Refused("OutOfBounds")
        channels, top, _ = FORMATS[image.kind]
        if len(samples) != channels or max(samples) > top:
            raise Refused("Formats")
        self.write(root, part, [list(samples) * part[2]] * part[3])

    def copy(self, source, target, part, dx, dy):
        image, extent, _ = self.find(source)
        other, bounds, root = self.find(target)
        if not includes(extent, part):
            raise Refused("OutOfBounds")
        there = moved(part, dx, dy) if part[2] else part
        if not is_rectangle(there) or not includes(bounds, there):
            raise Refused("OutOfBounds")
        if image.kind != other.kind:
            raise Refused("Formats")
        self.write(root, there, image.cut(part).rows)

    # -- states

    def committed_nodes(self):
        nodes = list(self.state.nodes)
        for edit in self.pending:
            names = [node[0] for node in nodes]
            if edit[0] == "drop":
                if edit[1] not in names:
                    raise Refused("UnknownInput")
                if any(edit[1] in node[2] for node in nodes):
                    raise Refused("InUse")
                nodes = [node for node in nodes if node[0] != edit[1]]
                continue
            node = edit[1]
            at = names.index(node[0]) if node[0] in names else len(nodes)
            if node[1][0] == "source":
                if node[1][1] not in self.buffers:
                    raise Refused("UnknownInput")
            elif any(name not in names[:at] for name in node[2]):
                raise Refused("UnknownInput")
            if at == len(nodes) and at == 256:
                raise Refused("TooManyNodes")
            nodes[at:at + 1] = [node]
        return nodes

    def commit(self):
        state = State(dict(self.roots), dict(self.buffers), self.committed_nodes())
        for name, op, inputs in state.nodes:
            if op[0] == "source":
                if op[1] not in state.buffers:
                    raise Refused("UnknownInput")
                state.shapes[name] = state.buffer_shape(op[1])
            else:
                state.shapes[name] = shape_of(op, [state.shapes[other] for other in inputs])
        old, written = self.state, self.written
        self.undoable = [(old, written)] + self.undoable[:63]
        self.redoable = []
        self.settle(state, written)

    def step(self, there, back, cause):
        if not there:
            raise Refused(cause)
        state, written = there.pop(0)
        back.insert(0, (self.state, written))
        self.settle(state, written)

    def settle(self, state, written):
        """Makes a state the last one, voids what it damages, and drops what wasn't committed."""
        damages = self.damages(self.state, state, written)
        self.cached = {
            pair: None
            for pair in self.cached
            if not meet(square(pair[1]), damages.get(pair[0], self.state.shape(pair[0])[1]))[2]
        }
        self.state = state
        self.roots, self.buffers = dict(state.roots), dict(state.buffers)
        self.pending, self.written = [], {}
        self.number += 1

    @staticmethod
    def damages(old, new, written):
        """Outside of which rectangle the image of each node of the new state is as it was."""
        damages = {}
        for name, op, inputs in new.nodes:
            before = old.node(name)
            box = new.shape(name)[1]
            same = before and before[1:] == (op, inputs) and all(old.shape(i) == new.shape(i) for i in inputs)
            if not same:
                damages[name] = hull(old.shape(name)[1], box)
            elif op[0] == "source":
                damages[name] = meet(written.get(new.buffers[op[1]][0], EMPTY), box)
            else:
                damage = EMPTY
                for other in inputs:
                    damage = hull(damage, reached_from(op, new.shape(other)[1], damages[other], box))
                damages[name] = damage
        return damages

    # -- reads

    def needed(self, name, part):
        """The tiles of nodes that a part of a node's image needs, in the order of the nodes."""
        state = self.state
        names = [node[0] for node in state.nodes]
        asked = {name: [meet(part, state.shape(name)[1])]}
        found = []
        for name, op, inputs in reversed(state.nodes[:names.index(name) + 1]):
            if op[0] == "source":
                continue
            box = state.shape(name)[1]
            wanted = sorted({t for r in asked.get(name, ()) for t in tiles(r)}, key=lambda t: (t[1], t[0]))
            found = [(name, tile) for tile in wanted] + found
            for tile in wanted:
                for other in inputs:
                    read = read_for(op, state.shape(other)[1], meet(square(tile), box))
                    asked.setdefault(other, []).append(read)
        return found

    def render(self, line, name, level, part, file):
        if not self.state.node(name):
            raise Refused("UnknownNode")
        x, y, w, h = (number << level for number in part)
        strips = [
            self.needed(name, meet((x, y, w, h), (x, row * TILE, w, TILE)))
            for row in range(y // TILE, (y + h - 1) // TILE + 1)
        ] if w else []
        if any(len(strip) > self.capacity for strip in strips):
            raise Refused("Strip")
        for pair in (pair for strip in strips for pair in strip):
            if pair in self.cached:
                self.reused += 1
                del self.cached[pair]
            else:
                self.applied += 1
            # The last of the dictionary is the most recent.
            self.cached[pair] = None
            if len(self.cached) > self.capacity:
                del self.cached[next(iter(self.cached))]
        data = self.state.image(name).level(level).cut(part).raw()
        self.files[file] = data
        self.text.append(f"render {line} commit {self.number} bytes {len(data)}")

    def grab(self, line, name, level, policy, part, file):
        image, extent, _ = self.find(name)
        data = image.cut(extent).level(level).cut(part, policy).raw()
        self.files[file] = data
        self.text.append(f"grab {line} bytes {len(data)}")

    # -- lines

    def carry_out(self, line, words):
        """Carries out a line that keeps the grammar."""
        word, *rest = words
        if word in ("buffer", "sub"):
            getattr(self, word)(rest[0], rest[1], tuple_of(rest[2:6]))
        elif word == "dup":
            self.dup(*rest)
        elif word == "load":
            self.load(rest[0], tuple_of(rest[1:5]), rest[5])
        elif word == "fill":
            self.fill(rest[0], tuple_of(rest[1:5]), [int(sample) for sample in rest[5:]])
        elif word == "copy":
            self.copy(rest[0], rest[1], tuple_of(rest[2:6]), int(rest[6]), int(rest[7]))
        elif word == "node":
            self.pending.append(("set", node_of(rest)))
        elif word == "drop":
            self.pending.append(("drop", rest[0]))
        elif word == "commit":
            self.commit()
        elif word == "undo":
            self.step(self.undoable, self.redoable, "NothingToUndo")
        elif word == "redo":
            self.step(self.redoable, self.undoable, "NothingToRedo")
        elif word == "render":
            self.render(line, rest[0], int(rest[1]), tuple_of(rest[2:6]), rest[6])
        else:
            self.grab(line, rest[0], int(rest[1]), rest[2], tuple_of(rest[3:7]), rest[7])


def tuple_of(words):
    return rectangle(*(int(word) for word in words))


# How many arguments an operation has before the names of its inputs, and how many inputs.
OPERATIONS = {
    "source": (1, 0), "color": (5, 0), "checker": (8, 0), "convert": (1, 1), "invert": (0, 1), "threshold": (1, 1),
    "gain": (2, 1), "translate": (2, 1), "crop": (4, 1), "flip": (1, 1), "box": (2, 1), "dilate": (2, 1), "erode": (2, 1),
    "add": (0, 2), "over": (0, 2), "mask": (0, 2),
}


def node_of(words):
    """The node that the words after `node` are: its name, its operation, its inputs."""
    name, word, *rest = words
    count, inputs = OPERATIONS[word]
    arguments = rest if inputs == 0 else rest[:count]
    names = tuple(rest[count:]) if inputs else ()
    if word == "source":
        return name, ("source", rest[0]), ()
    if word == "color":
        return name, (word, rest[0], tuple_of(rest[1:5]), tuple(int(s) for s in rest[5:])), ()
    if word == "checker":
        return name, (word, rest[0], tuple_of(rest[1:5]), *(int(s) for s in rest[5:])), ()
    if word == "crop":
        return name, (word, tuple_of(arguments)), names
    return name, (word, *(int(a) if re.fullmatch("-?[0-9]+", a) else a for a in arguments)), names
