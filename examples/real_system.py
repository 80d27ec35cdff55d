#!/usr/bin/env python3
"""Runs the built program where no contract reaches: on closed descriptors, beside other runs, under limits
of the system, on a full disk, killed while it writes, and with names of pipes and links; looks at what it
says on standard error; and compares the README's example with bytes that are computed here.

    real_system.py PROGRAM [NAME..]

runs all tests, or those of these names, each in a folder of its own. A test that needs what this machine
doesn't allow is skipped, and says so. The last line counts them, and the status is 1 where one failed."""

import contextlib
import itertools
import os
import pathlib
import resource
import shutil
import signal
import subprocess
import sys
import tempfile
import threading
import time

PROGRAM = os.path.abspath(sys.argv[1]) if len(sys.argv) > 1 else ""
README = pathlib.Path(__file__).resolve().parent.parent / "README.md"
# How long a run may take, in seconds. Most take some milliseconds.
LONGEST = 60

# One tile of a buffer of 100 tiles of 4 KiB, and the whole of it twice. With one tile in memory the others
# are in the swap.
SIDE = 640
SEVENS = f"""buffer a Y8 0 0 {SIDE} {SIDE}
fill a 0 0 {SIDE} {SIDE} 7
grab a 0 NONE 0 0 64 64 one.raw
grab a 0 NONE 0 0 {SIDE} {SIDE} two.raw
grab a 0 NONE 0 0 {SIDE} {SIDE} three.raw
"""
SEVENS_TEXT = b"""grab 3 bytes 4096
grab 4 bytes 409600
grab 5 bytes 409600
report applied 0 reused 0
"""
ONE_TILE = ("run", "s.txt", "--resident", "1")
BLOCK = 4096


class Skipped(Exception):
    """The machine doesn't allow what the test needs."""


def check(holds, message):
    if not holds:
        raise AssertionError(message)


def run(folder, *words, closed=(), file_limit=None, memory_limit=None, has_signal=True, before=(), **streams):
    """Runs the program in a folder, as a user's shell would start it, and returns how it ended. Of standard
    input, output and error those in `closed` are closed. A file may have `file_limit` bytes: a write past
    them is answered by the system's signal, which ends the program, or by an error without the signal."""

    def prepare():
        signal.signal(signal.SIGXFSZ, signal.SIG_DFL if has_signal else signal.SIG_IGN)
        if file_limit is not None:
            resource.setrlimit(resource.RLIMIT_FSIZE, (file_limit, file_limit))
        if memory_limit is not None:
            resource.setrlimit(resource.RLIMIT_AS, (memory_limit, memory_limit))
        resource.setrlimit(resource.RLIMIT_CORE, (0, 0))
        for number in closed:
            os.close(number)

    given = {"stdin": subprocess.DEVNULL, "stdout": subprocess.PIPE, "stderr": subprocess.PIPE, **streams}
    return subprocess.run([*before, PROGRAM, *words], cwd=folder, preexec_fn=prepare, timeout=LONGEST, **given)


def write_script(folder, text, name="s.txt"):
    (folder / name).write_text(text)


def check_ended(ended, status, text=None):
    said = (ended.stderr or b"").decode(errors="replace")
    check(ended.returncode == status, f"status {ended.returncode}, and not {status}; it said: {said}")
    if text is not None:
        check(ended.stdout == text, f"printed {ended.stdout!r}, and not {text!r}")


def check_sevens(folder, names, size=SIDE * SIDE):
    for name in names:
        raster = (folder / name).read_bytes()
        check(len(raster) == size, f"{name} has {len(raster)} bytes, and not {size}")
        check(raster.count(7) == size, f"{name} has wrong bytes: {raster.replace(bytes([7]), b'')[:60]!r} ..")


def check_nothing_left(folder, names):
    left = sorted(it.name for it in folder.iterdir())
    check(left == sorted(names), f"the folder has {left}, and not {sorted(names)}")


def separate_mounts():
    """Returns the words before a command that may mount what others don't see."""
    words = ["unshare", "--mount"]
    trial = [*words, "mount", "-t", "tmpfs", "none", "/mnt"]
    try:
        tried = subprocess.run(trial, stdin=subprocess.DEVNULL, capture_output=True, timeout=LONGEST)
    except OSError as error:
        raise Skipped(f"unshare: {error.strerror}")
    if tried.returncode:
        raise Skipped(f"no mounts are allowed here: {tried.stderr.decode(errors='replace').strip()}")
    return words


# ---- closed descriptors


def no_text_gets_into_the_swap(folder):
    """A file that is opened gets the lowest free descriptor, also that of standard output where it is closed."""
    for closed in (it for count in range(4) for it in itertools.combinations(range(3), count)):
        write_script(folder, SEVENS)
        ended = run(folder, *ONE_TILE, closed=closed)
        check_ended(ended, 6 if 1 in closed else 0, b"" if 1 in closed else SEVENS_TEXT)
        check_sevens(folder, ["one.raw"], 64 * 64)
        check_sevens(folder, [it for it in ("two.raw", "three.raw") if 1 not in closed or (folder / it).exists()])
        for name in folder.glob("*.raw"):
            name.unlink()


def no_text_gets_into_the_swap_without_devices(folder):
    """As above, where there is no /dev/null."""
    before = [*separate_mounts(), "sh", "-c", 'mount -t tmpfs none /dev && exec "$@"', "sh"]
    write_script(folder, SEVENS)
    check_ended(run(folder, *ONE_TILE, before=before), 0, SEVENS_TEXT)
    check_sevens(folder, ["two.raw", "three.raw"])
    before[4] = 'mount -t tmpfs none /dev && exec "$@" >&-'
    check_ended(run(folder, *ONE_TILE, before=before), 6)


# ---- the swap file


@contextlib.contextmanager
def others_swap_files(folder):
    """Makes files of the swap's name in a folder, and removes them, as other runs do, over and over."""
    name, ends = folder / ".tilegraph-swap", threading.Event()

    def make_and_remove():
        while not ends.is_set():
            with contextlib.suppress(OSError):
                os.close(os.open(name, os.O_CREAT | os.O_EXCL | os.O_RDWR))
            with contextlib.suppress(OSError):
                os.unlink(name)

    other = threading.Thread(target=make_and_remove)
    other.start()
    try:
        yield
    finally:
        ends.set()
        other.join()


def start_silently(folder, *words):
    null = subprocess.DEVNULL
    return subprocess.Popen([PROGRAM, *words], cwd=folder, stdin=null, stdout=null, stderr=null)


def runs_side_by_side(folder):
    """Runs that begin in one folder at once have a swap file each, whoever takes its name away."""
    rounds, runs = 25, 8
    for number in range(runs):
        write_script(folder, SEVENS.replace(".raw", f"{number}.raw"), f"s{number}.txt")
    with others_swap_files(folder):
        for _ in range(rounds):
            started = [start_silently(folder, "run", f"s{it}.txt", "--resident", "1") for it in range(runs)]
            statuses = [it.wait(timeout=LONGEST) for it in started]
            check(not any(statuses), f"runs side by side ended with {statuses}")
    check_sevens(folder, [f"{name}{number}.raw" for name in ("two", "three") for number in range(runs)])
    check(not (folder / ".tilegraph-swap").exists(), "a swap file is left")


def names_in_the_way(folder):
    """What has the swap file's name is removed where it can be, and never written to."""
    write_script(folder, SEVENS)
    (folder / "other").write_bytes(b"of another")
    os.link(folder / "other", folder / ".tilegraph-swap")
    check_ended(run(folder, *ONE_TILE), 0, SEVENS_TEXT)
    os.symlink("other", folder / ".tilegraph-swap")
    check_ended(run(folder, *ONE_TILE), 0, SEVENS_TEXT)
    check_sevens(folder, ["two.raw", "three.raw"])
    check((folder / "other").read_bytes() == b"of another", "another file was written to")
    check_nothing_left(folder, ["s.txt", "other", "one.raw", "two.raw", "three.raw"])
    (folder / ".tilegraph-swap").mkdir()
    check_ended(run(folder, *ONE_TILE), 5, b"")


def limits_of_files(folder):
    """The swap file is as long as the blocks that are used: a limit that they keep isn't met."""
    write_script(folder, SEVENS)
    check_ended(run(folder, *ONE_TILE, file_limit=SIDE * SIDE), 0, SEVENS_TEXT)
    check_sevens(folder, ["two.raw", "three.raw"])
    # Where the blocks in use exceed it, the system's signal ends the run, or the refused write does.
    write_script(folder, "".join(SEVENS.splitlines(keepends=True)[:3]))
    check_ended(run(folder, *ONE_TILE, file_limit=50 * BLOCK), -signal.SIGXFSZ, b"")
    check_ended(run(folder, *ONE_TILE, file_limit=50 * BLOCK, has_signal=False), 5, b"")


def full_disk(folder):
    """A block that the disk has no room for ends the run with status 5."""
    place = 'mount -t tmpfs -o size=100k none . && cd "$PWD" && cp ../s.txt . && exec "$@"'
    before = [*separate_mounts(), "sh", "-c", place, "sh"]
    write_script(folder, SEVENS)
    (folder / "disk").mkdir()
    check_ended(run(folder / "disk", *ONE_TILE, before=before), 5, b"")


# ---- files that are written


# A render of 48 MiB, by bands, and a grab of 16 MiB, in one piece, each of one sample, and how many bytes they have.
LARGE = """node k color RGB8 0 0 4096 4096 SAMPLE SAMPLE SAMPLE
commit
render k 0 0 0 4096 4096 out.raw
"""
PIECE = """buffer a Y8 0 0 4096 4096
fill a 0 0 4096 4096 SAMPLE
grab a 0 NONE 0 0 4096 4096 out.raw
"""
WRITTEN = ((LARGE, 3 * 4096**2), (PIECE, 4096**2))


def check_same_bytes(path, size, samples):
    """Checks that a file has so many bytes, all of them one of these samples."""
    raster = path.read_bytes()
    is_whole = len(raster) == size and any(raster.count(it) == size for it in samples)
    check(is_whole, f"{path.name} has {len(raster)} bytes, {len(set(raster))} of them different")


def killed_runs(folder):
    """A run that is killed while it writes a file leaves the old one under its name, or the whole new one."""
    old = b"of an older run"
    for script, size in WRITTEN:
        write_script(folder, script.replace("SAMPLE", "7"))
        begun = time.monotonic()
        check_ended(run(folder, "run", "s.txt"), 0)
        whole = time.monotonic() - begun
        was_cut = False
        for part in range(1, 9):
            (folder / "out.raw").write_bytes(old)
            started = start_silently(folder, "run", "s.txt")
            # From the half of a run's time on the file is written.
            time.sleep(whole * (8 + part) / 16)
            started.kill()
            started.wait(timeout=LONGEST)
            if (folder / "out.raw").read_bytes() != old:
                check_same_bytes(folder / "out.raw", size, [7])
            for left in folder.glob(".out.raw.part-*"):
                was_cut = True
                left.unlink()
        if not was_cut:
            print("real system: no run was killed while it wrote its file")


def one_name_for_two_runs(folder):
    """Of two runs that write one name at once, the file is that of one of them, whole."""
    for script, size in WRITTEN:
        for sample in (7, 8):
            write_script(folder, script.replace("SAMPLE", str(sample)), f"s{sample}.txt")
        for _ in range(3):
            started = [start_silently(folder, "run", f"s{it}.txt") for it in (7, 8)]
            statuses = [it.wait(timeout=LONGEST) for it in started]
            check(statuses == [0, 0], f"runs that write one name ended with {statuses}")
            check_same_bytes(folder / "out.raw", size, [7, 8])
    check_nothing_left(folder, ["s7.txt", "s8.txt", "out.raw"])


def refused_writes(folder):
    """A file that can't be written whole is as it was, and nothing else is left of it."""
    old = b"of an older run"
    for script, size in WRITTEN:
        write_script(folder, script.replace("SAMPLE", "7"))
        (folder / "out.raw").write_bytes(old)
        ended = run(folder, "run", "s.txt", file_limit=size // 2, has_signal=False)
        check_said(ended, 4, "tilegraph: a file could not be written", b"")
        check((folder / "out.raw").read_bytes() == old, "a file that couldn't be written isn't the old one")
        check_nothing_left(folder, ["s.txt", "out.raw"])


def links(folder):
    """A link in the folder is replaced by the file that has its name, and not followed."""
    outside = folder / "outside"
    outside.mkdir()
    (outside / "kept").write_bytes(b"of another")
    (folder / "run").mkdir()
    for script, size in WRITTEN:
        write_script(folder / "run", script.replace("SAMPLE", "7"))
        for target in ("../outside/kept", "../outside/new", "/dev/null"):
            (folder / "run" / "out.raw").unlink(missing_ok=True)
            os.symlink(target, folder / "run" / "out.raw")
            check_ended(run(folder / "run", "run", "s.txt"), 0)
            check(not (folder / "run" / "out.raw").is_symlink(), "a link is still there")
            check_same_bytes(folder / "run" / "out.raw", size, [7])
    check((outside / "kept").read_bytes() == b"of another", "a file outside of the folder was written to")
    check_nothing_left(outside, ["kept"])


def pipes(folder):
    """A pipe as script, raster or output is an I/O error, and nobody waits for its other end."""
    os.mkfifo(folder / "pipe")
    check_said(run(folder, "run", "pipe"), 3, "tilegraph: a file could not be read", b"")
    write_script(folder, "buffer a Y8 0 0 8 8\nload a 0 0 8 8 pipe\n")
    check_said(run(folder, "run", "s.txt"), 3, "tilegraph: a file could not be read", b"")
    write_script(folder, "buffer a Y8 0 0 8 8\ngrab a 0 NONE 0 0 8 8 pipe\n")
    check_said(run(folder, "run", "s.txt"), 4, "tilegraph: a file could not be written", b"")
    write_script(folder, LARGE.replace("SAMPLE", "7").replace("out.raw", "pipe"))
    check_said(run(folder, "run", "s.txt"), 4, "tilegraph: a file could not be written", b"")
    check((folder / "pipe").is_fifo(), "the pipe is gone")


# ---- standard error


def check_said(ended, status, begins, text=None):
    """Checks a status with at most six lines on standard error, none of more than 100 letters."""
    check_ended(ended, status, text)
    lines = ended.stderr.decode().splitlines()
    check(lines and lines[0].startswith(begins), f"status {status} says {lines}")
    check(len(lines) <= 6 and all(len(it) <= 100 for it in lines), f"status {status} says too much: {lines}")


def usage(folder):
    """What is no command line is answered by how the program is called."""
    write_script(folder, SEVENS)
    a_path = str(folder / "s.txt")
    for words in ([], ["run"], ["run", "./s.txt"], ["run", a_path], ["s.txt"], ["--help"], ["run", b"\xff"]):
        ended = run(folder, *words)
        check_said(ended, 1, "usage: tilegraph run SCRIPT", b"")
        for word in ("make NUMBER", "plain name", "--resident", "--cache", "--swap-blocks", "--workers"):
            check(word.encode() in ended.stderr, f"the usage doesn't have {word}")


def silent_statuses(folder):
    """A run that standard output tells of says nothing else."""
    write_script(folder, SEVENS)
    ended = run(folder, *ONE_TILE)
    check_ended(ended, 0, SEVENS_TEXT)
    check(ended.stderr == b"", f"status 0 says {ended.stderr}")
    write_script(folder, "commit\nundo\nundo\n")
    ended = run(folder, "run", "s.txt")
    check_ended(ended, 2, b"line 3: NothingToUndo\n")
    check(ended.stderr == b"", f"status 2 says {ended.stderr}")


def statuses_with_lines(folder):
    """From 3 on a line says what the status means."""
    (folder / "folder.raw").mkdir()
    write_script(folder, "buffer a Y8 0 0 8 8\nload a 0 0 8 8 folder.raw\n")
    check_said(run(folder, "run", "s.txt"), 3, "tilegraph: a file could not be read", b"")
    write_script(folder, "buffer a Y8 0 0 8 8\ngrab a 0 NONE 0 0 8 8 folder.raw\n")
    check_said(run(folder, "run", "s.txt"), 4, "tilegraph: a file could not be written", b"")
    write_script(folder, SEVENS)
    check_said(run(folder, *ONE_TILE, "--swap-blocks", "50"), 8, "tilegraph: the swap is full", b"")
    check_said(run(folder, "run", "s.txt", closed=[1]), 6, "tilegraph: a text could not be printed")
    # Standard error that takes nothing changes no status.
    check_ended(run(folder, "run", "s.txt", closed=[1, 2]), 6)
    reader, writer = os.pipe()
    os.close(reader)
    check_ended(run(folder, "run", "./s.txt", stderr=writer), 1, b"")
    os.close(writer)
    (folder / ".tilegraph-swap").mkdir()
    check_said(run(folder, *ONE_TILE), 5, "tilegraph: the swap file failed", b"")


def out_of_memory(folder):
    """A run that the system refuses memory says so."""
    write_script(folder, "buffer a RGBA16 0 0 4096 4096\nfill a 0 0 4096 4096 1 2 3 4\n")
    for limit in (32 << 20, 64 << 20, 96 << 20):
        ended = run(folder, "run", "s.txt", "--workers", "1", memory_limit=limit)
        if ended.returncode != 127:
            check_said(ended, 7, "tilegraph: memory ran out", b"")
            return
    raise Skipped("the program doesn't start in little memory")


def full_output(folder):
    """A text that has no room ends the run with status 6."""
    if not os.path.exists("/dev/full"):
        raise Skipped("there is no /dev/full")
    write_script(folder, SEVENS)
    with open("/dev/full", "wb") as full:
        check_said(run(folder, *ONE_TILE, stdout=full), 6, "tilegraph: a text could not be printed")
        check_ended(run(folder, "run", "./s.txt", stderr=full), 1, b"")
    check_sevens(folder, ["one.raw"], 64 * 64)


# ---- the README's example, computed here


# A plane is the samples of one channel, as rows.


def window_sums(plane, radius):
    """Returns for each sample the sum of those at most `radius` columns away, read under CLAMP."""
    sums, size = [], 2 * radius + 1
    for row in plane:
        totals = [0, *itertools.accumulate([row[0]] * radius + row + [row[-1]] * radius)]
        sums.append([totals[x + size] - totals[x] for x in range(len(row))])
    return sums


def turned(plane):
    return [list(column) for column in zip(*plane)]


def boxed(plane, radius):
    sums, count = turned(window_sums(turned(window_sums(plane, radius)), radius)), (2 * radius + 1) ** 2
    return [[(it + count // 2) // count for it in row] for row in sums]


def gained(plane, numerator, denominator):
    return [[min(255, (it * numerator + denominator // 2) // denominator) for it in row] for row in plane]


def filled(plane, left, top, width, height, sample):
    rows = [row[:left] + [sample] * width + row[left + width :] for row in plane[top : top + height]]
    return plane[:top] + rows + plane[top + height :]


def halved(plane):
    pairs = zip(plane[::2], plane[1::2])
    return [[(sum(a[x : x + 2] + b[x : x + 2]) + 2) // 4 for x in range(0, len(a), 2)] for a, b in pairs]


def raw_bytes(planes):
    return bytes(sample for rows in zip(*planes) for pixel in zip(*rows) for sample in pixel)


def photo_planes(width, height):
    """Returns three planes of samples as from a generator of random numbers."""
    state, samples = 20, []
    for _ in range(width * height * 3):
        state = (1664525 * state + 1013904223) % 2**32
        samples.append(state >> 24)
    lines = [samples[3 * width * y : 3 * width * (y + 1)] for y in range(height)]
    return [[line[channel::3] for line in lines] for channel in range(3)]


def readme_script():
    """Returns the script that the README begins with: the lines of its first indented block that has a buffer."""
    blocks = README.read_text().split("\n\n")
    block = next(it for it in blocks if it.startswith("    ") and "buffer a RGB8" in it)
    return "".join(f"{line[4:]}\n" for line in block.splitlines())


README_TEXT = b"""render 9 commit 1 bytes 73728
render 13 commit 2 bytes 73728
render 16 commit 3 bytes 4608
report applied 28 reused 8
"""


def readme_example(folder):
    """The README's rasters are those that are computed here from the definitions, and its texts those that it tells."""
    photo = photo_planes(192, 128)
    edited = [filled(plane, 64, 40, 32, 32, sample) for plane, sample in zip(photo, (255, 214, 128))]
    one, two = ([gained(boxed(plane, 5), 3, 2) for plane in planes] for planes in (photo, edited))
    wanted = {"one.raw": one, "two.raw": two, "small.raw": [halved(halved(plane)) for plane in one]}
    write_script(folder, readme_script())
    (folder / "in.raw").write_bytes(raw_bytes(photo))
    for options in ([], ["--resident", "1", "--workers", "1"], ["--resident", "1", "--workers", "4"]):
        check_ended(run(folder, "run", "s.txt", *options), 0, README_TEXT)
        for name, planes in wanted.items():
            is_same = (folder / name).read_bytes() == raw_bytes(planes)
            check(is_same, f"{name} isn't what was computed, with {options}")


TESTS = [
    no_text_gets_into_the_swap,
    no_text_gets_into_the_swap_without_devices,
    runs_side_by_side,
    names_in_the_way,
    limits_of_files,
    full_disk,
    killed_runs,
    one_name_for_two_runs,
    refused_writes,
    links,
    pipes,
    usage,
    silent_statuses,
    statuses_with_lines,
    out_of_memory,
    full_output,
    readme_example,
]


def outcome_of(test):
    """Runs a test in a new folder, and returns how it ended: one of passed, skipped, failed."""
    with tempfile.TemporaryDirectory(prefix="real-system-") as folder:
        try:
            test(pathlib.Path(folder))
        except Skipped as why:
            print(f"real system: {test.__name__} skipped: {why}", flush=True)
            return "skipped"
        except (AssertionError, OSError, subprocess.SubprocessError) as why:
            print(f"real system: {test.__name__} FAILED: {why}", flush=True)
            return "failed"
    return "passed"


def main():
    if not PROGRAM:
        print(__doc__)
        return 2
    named = sys.argv[2:]
    outcomes = [outcome_of(test) for test in TESTS if not named or test.__name__ in named]
    failed, skipped = outcomes.count("failed"), outcomes.count("skipped")
    passed = outcomes.count("passed")
    counts = f"{passed} of {len(outcomes)} tests passed ({skipped} skipped, {failed} failed)"
    print(f"real system, {os.path.basename(PROGRAM)}: {counts}")
    return 1 if failed or not outcomes else 0


if __name__ == "__main__":
    sys.exit(main())
