# peers.py PROGRAM FOLDER EDITS SEED: started by `run`, which says what it does.
import os
import random
import subprocess
import sys
import time

import nbd

SIZE = 256 * 1024
LONGEST = 20000  # of one edit
LONGEST_SHARE = 65536
# Drive rows: alignments of memory, requests, zero requests and discards.
ROWS = {1: (1, 512, 512, 512), 2: (512, 512, 4096, 4096), 3: (4096, 4096, 4096, 65536), 4: (4096, 512, 512, 512)}
ROWS_OF = {512: (1, 2, 4), 4096: (3,)}
KINDS = ("write", "zero", "alloc")


def down(n, a):
    return n // a * a


def up(n, a):
    return -(-n // a) * a


class Edit:
    def __init__(self, kind, offset, length, rng):
        self.kind, self.offset, self.length = kind, offset, length
        self.data = rng.getrandbits(8 * length).to_bytes(length, "little") if kind == "write" else bytes(length)

    def end(self):
        return self.offset + self.length

    # the line of a script
    def line(self):
        return "%s %d %s" % (self.kind, self.offset, self.data.hex() if self.kind == "write" else self.length)

    # the command line
    def command(self, image):
        if self.kind == "write":
            return ["edit", image, str(self.offset), "--hex", self.data.hex()]
        return ["zero", image, str(self.offset), str(self.length)] + (["--alloc"] if self.kind == "alloc" else [])

    def shown(self):
        line = self.line()
        return line if len(line) <= 90 else "%s.. (%d bytes)" % (line[:74], self.length)

    def overlaps(self, other):
        return self.offset < other.end() and other.offset < self.end()

    def shares_block(self, other, block):
        return down(self.offset, block) < up(other.end(), block) and down(other.offset, block) < up(self.end(), block)


# --- What is drawn ---


def drawn_kind(rng):
    return rng.choices(KINDS, (6, 3, 1))[0]


# An offset at a boundary of 512 or 4096, or 1 or 2 bytes off it.
def near_boundary(rng, most):
    a = rng.choice((512, 4096))
    return min(max(rng.randint(0, most // a) * a + rng.randint(-2, 2), 0), most)


# An offset and a length, inside the first `most` bytes.
def drawn_range(rng, most):
    sort = rng.choices(("ten", "boundaries", "short", "whole", "any"), (3, 4, 2, 1, 1))[0]
    if sort == "ten":
        start = rng.choice((rng.randint(0, most), near_boundary(rng, most)))
        length = 10
    elif sort == "boundaries":
        start, a = near_boundary(rng, most), rng.choice((512, 4096))
        length = (start // a + rng.randint(0, LONGEST // a)) * a + rng.randint(-2, 2) - start
    elif sort == "short":
        start = near_boundary(rng, most)
        length = rng.choice((1, 2, 3, 511, 512, 513, 1024, 4095, 4096, 4097, 8192))
    elif sort == "whole":
        a = rng.choice((512, 4096))
        start = rng.randrange(0, down(most, a), a)
        length = down(min(rng.randint(1, LONGEST // a) * a, most - start), a)
    else:
        start = rng.randint(0, most)
        length = rng.randint(1, LONGEST)
    start = min(start, most - 1)
    return start, min(max(length, 1), LONGEST, most - start)


# Edits that follow each other closely, some at once.
def drawn_cluster(rng, count, most):
    edits = []
    at = rng.choice((rng.randint(0, most), near_boundary(rng, most)))
    while len(edits) < count:
        at += rng.choice((0, 0, 1, 2, 10, rng.randint(0, 200)))
        length = rng.choice((1, 2, 10, 10, 10, rng.randint(1, 600), rng.randint(1, 6000)))
        if rng.random() < 0.4:  # ends at a boundary, or near it
            length = max(up(at + length, rng.choice((512, 4096))) + rng.randint(-2, 2) - at, 1)
        elif rng.random() < 0.15:  # whole blocks
            a = rng.choice((512, 4096))
            at, length = up(at, a), rng.randint(1, 3) * a
        if most < at + length:
            break
        edits.append(Edit(drawn_kind(rng), at, length, rng))
        at += length
    return edits


def drawn_scatter(rng, count, most):
    edits = []
    for _ in range(10 * count):
        e = Edit(drawn_kind(rng), *drawn_range(rng, most), rng)
        if len(edits) < count and not any(e.overlaps(o) for o in edits):
            edits.append(e)
    return edits


# Two to sixteen edits, no two of which have a byte in common.
def drawn_fleet(rng, most):
    while True:
        count = rng.randint(2, 16)
        edits = (drawn_cluster if rng.random() < 0.85 else drawn_scatter)(rng, count, most)
        if len(edits) >= 2:
            rng.shuffle(edits)
            return edits


# Shares that the row takes: a multiple of L from 2Z + 2L on. Writes that are longer are cut into several.
def drawn_share(rng, row):
    mem, req, zero, _ = ROWS[row]
    l = max(mem, req)
    least = up(2 * zero + 2 * l, l)
    return rng.choice((least, least, LONGEST_SHARE, rng.randrange(least, LONGEST_SHARE + 1, l)))


class Round:
    def __init__(self, rng, block):
        self.row = rng.choice(ROWS_OF[block])
        self.fleet = rng.random() < 0.5
        self.edits = drawn_fleet(rng, SIZE) if self.fleet else [Edit(drawn_kind(rng), *drawn_range(rng, SIZE), rng)]
        self.by_script = self.fleet or rng.random() < 0.3
        orders = ("--order", "first"), ("--order", "round"), ("--order", str(rng.getrandbits(64)))
        turns = rng.choice((*orders, ("--out", str(rng.randint(1, 8)))))
        self.options = ["--drive", str(self.row), "--share", str(drawn_share(rng, self.row)), *turns]


# --- The three ---


class Failed(Exception):
    pass


def run(words):
    try:
        r = subprocess.run(words, stdin=subprocess.DEVNULL, stdout=subprocess.PIPE, stderr=subprocess.STDOUT, timeout=120)
    except subprocess.TimeoutExpired:
        raise Failed("%s did not end in 120 seconds" % words[0])
    return r.returncode, r.stdout.decode(errors="replace")


class Pitchcase:
    name = "pitchcase"

    def __init__(self, program, image, folder, block):
        self.program, self.image, self.script = os.path.abspath(program), image, os.path.join(folder, "script")

    def edit(self, r):
        if r.by_script:
            with open(self.script, "w") as f:
                f.write("".join(e.line() + "\n" for e in r.edits))
            words = [self.program, "fleet", self.image, self.script]
        else:
            words = [self.program, *r.edits[0].command(self.image)]
        status, out = run(words + r.options)
        if status != 0:
            raise Failed("pitchcase ended with %d: %s" % (status, out[-300:]))

    def close(self):
        pass


class Qemu:
    name = "qemu-io"

    # blkdebug takes only requests that are multiples of `align`: QEMU's block layer pads the others before they reach it.
    def __init__(self, image, folder, block):
        self.folder = folder
        options = "driver=raw,file.driver=blkdebug,file.align=%d,file.image.driver=file,file.image.filename=%s" % (block, image)
        self.words = ["qemu-io", "--image-opts", options]

    def edit(self, r):
        words = list(self.words)
        for i, e in enumerate(r.edits):
            if e.kind == "write":
                path = os.path.join(self.folder, "bytes%d" % i)
                with open(path, "wb") as f:
                    f.write(e.data)
                words += ["-c", "write -s %s %d %d" % (path, e.offset, e.length)]
            else:
                words += ["-c", "write -z %d %d" % (e.offset, e.length)]
        _, out = run(words)
        done = [l for l in out.splitlines() if l.startswith("wrote ")]
        if done != ["wrote %d/%d bytes at offset %d" % (e.length, e.length, e.offset) for e in r.edits]:
            raise Failed("qemu-io: %s" % out)

    def close(self):
        pass


class Nbdkit:
    name = "nbdkit"

    # The filter blocksize pads; blocksize-policy, below it, fails a request that is no multiple of the block size.
    def __init__(self, image, folder, block):
        self.h = nbd.NBD()
        self.h.connect_command([
            "nbdkit", "--single", "--exit-with-parent", "--filter=blocksize", "--filter=blocksize-policy", "file", image,
            "minblock=%d" % block, "blocksize-minimum=%d" % block, "blocksize-error-policy=error"])
        least = self.h.get_block_size(nbd.SIZE_MINIMUM)
        if least != 1 or self.h.get_size() != SIZE:
            raise Failed("nbdkit advertises blocks of %d and %d bytes in all" % (least, self.h.get_size()))

    def edit(self, r):
        for e in r.edits:
            try:
                if e.kind == "write":
                    self.h.pwrite(e.data, e.offset)
                else:
                    self.h.zero(e.length, e.offset)
            except nbd.Error as error:
                raise Failed("nbdkit: %s" % error)

    def close(self):
        self.h.shutdown()


# --- The comparison ---


def first_difference(a, b):
    return next((i for i, (x, y) in enumerate(zip(a, b)) if x != y), min(len(a), len(b)))


def byte_at(s, at):
    return "%02x" % s[at] if at < len(s) else "no byte"


# What is printed of a round that fails.
def show(what, n, r, block, seed, why):
    print(what + ": block size %d, round %d, seed %s: %s" % (block, n, seed, why))
    print("  pitchcase %s %s" % ("fleet" if r.by_script else "with one edit", " ".join(r.options)))
    for e in r.edits:
        print("  " + e.shown())


def differing(paths, plain):
    for other in paths[1:]:
        if subprocess.run(["cmp", "-s", paths[0], other]).returncode != 0:
            break
    else:
        return None
    text = []
    whole = [open(p, "rb").read() for p in paths]
    at = min(first_difference(whole[0], w) for w in whole[1:] if w != whole[0])
    for p, w in zip(paths, whole):
        text.append("  %s: %d bytes, at %d %s" % (os.path.basename(p), len(w), at, byte_at(w, at)))
    text.append("  a plain file: %d bytes, at %d %s" % (len(plain), at, byte_at(plain, at)))
    return "first differing offset %d\n%s" % (at, "\n".join(text))


def compare(program, folder, block, edits, seed):
    rng = random.Random("%s/%d" % (seed, block))
    image = rng.getrandbits(8 * SIZE).to_bytes(SIZE, "little")
    plain = bytearray(image)
    paths = [os.path.join(folder, "%s%d.img" % (name, block)) for name in ("pitchcase", "qemu-io", "nbdkit")]
    for p in paths:
        with open(p, "wb") as f:
            f.write(image)
    three = [Pitchcase(program, paths[0], folder, block), Qemu(paths[1], folder, block), Nbdkit(paths[2], folder, block)]
    count = dict.fromkeys(KINDS, 0)
    singles = fleets = sharing = 0
    shown = time.monotonic()
    while sum(count.values()) < edits:
        r = Round(rng, block)
        n = singles + fleets + 1
        for e in r.edits:
            plain[e.offset:e.end()] = e.data
        try:
            for one in three:
                one.edit(r)
        except Failed as f:
            show("NOT DONE", n, r, block, seed, f)
            return None
        why = differing(paths, plain)
        if why:
            show("DIFFERENCE", n, r, block, seed, why)
            return None
        if r.fleet:
            fleets += 1
        else:
            singles += 1
        for e in r.edits:
            count[e.kind] += 1
            sharing += any(o is not e and o.shares_block(e, block) for o in r.edits)
        if shown + 3 <= time.monotonic():
            shown = time.monotonic()
            print("block size %d: %d of %d edits, %d rounds, identical so far" % (block, sum(count.values()), edits, n), flush=True)
    for one in three:
        one.close()
    return [block] + [count[k] for k in KINDS] + [sum(count.values()), sharing, singles, fleets, "identical"]


def main():
    program, folder, edits, seed = sys.argv[1], sys.argv[2], int(sys.argv[3]), sys.argv[4]
    table = [["block size", *KINDS, "edits", "sharing a block", "single rounds", "fleet rounds", "pitchcase, qemu-io, nbdkit"]]
    for block in (512, 4096):
        try:
            row = compare(program, folder, block, edits, seed)
        except (Failed, nbd.Error) as f:
            print("block size %d: %s" % (block, f))
            row = None
        if row is None:
            return 1
        table.append([str(x) for x in row])
    widths = [max(len(l[i]) for l in table) for i in range(len(table[0]))]
    for l in table:
        print("  ".join(x.rjust(w) for x, w in zip(l, widths)))
    return 0


if __name__ == "__main__":
    try:
        sys.exit(main())
    except KeyboardInterrupt:
        sys.exit(130)
