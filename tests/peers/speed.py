"""speed.py PITCHCASE FOLDER [OTHER]: what edits and zeroes cost, by pitchcase, qemu-io and nbdkit. See tests/peers/speed."""
import os
import random
import resource
import shutil
import subprocess
import sys
import time

JOBS = 15000
SIZE = 1 << 20
program, folder = sys.argv[1], sys.argv[2]
other = sys.argv[3] if len(sys.argv) > 3 else None
image, script, empty = folder + "/image", folder + "/script", folder + "/empty"
offsets = random.Random(1)
offsets = [offsets.randrange(SIZE) for _ in range(JOBS)]


def spent():
    """Processor seconds of the programs that have ended."""
    used = resource.getrusage(resource.RUSAGE_CHILDREN)
    return used.ru_utime + used.ru_stime


def timed(run, clock=time.perf_counter):
    start = clock()
    run()
    return clock() - start


def command(*words, text=None):
    def run():
        subprocess.run(words, input=text, stdout=subprocess.DEVNULL, check=True)

    return run


def cost(work, nothing, rounds, clock=time.perf_counter):
    """Least and median microseconds a job: a run of all jobs less one of none, in turn."""
    pairs = [(timed(work, clock), timed(nothing, clock)) for _ in range(rounds)]
    whole, start = (sorted(times) for times in zip(*pairs))
    return tuple((whole[i] - start[i]) / JOBS * 1e6 for i in (0, rounds // 2))


def show(name, figures, base):
    print("%-34s %8.2f %8.2f %8.2f" % (name, figures[0], figures[1], figures[1] / base), flush=True)


def fleet(which, order=()):
    work = command(which, "fleet", image, script, "--drive", "1", *order)
    return work, command(which, "fleet", image, empty, "--drive", "1")


def edits():
    print("%-34s %8s %8s %8s" % ("%d edits of 10 bytes" % JOBS, "least us", "median", "ratio"))
    base = None
    for order in ("first", "round", "7"):
        figures = cost(*fleet(program, ("--order", order)), 9)
        base = base or figures[1]
        show("pitchcase fleet --order " + order, figures, base)
    show("pitchcase, processor time", cost(*fleet(program), 15, spent), base)
    if other:
        show(os.path.basename(other) + ", processor time", cost(*fleet(other), 15, spent), base)
        show(os.path.basename(other), cost(*fleet(other), 9), base)
    if shutil.which("qemu-io"):
        options = "driver=raw,file.driver=blkdebug,file.align=512,file.image.driver=file,file.image.filename=" + image
        words = "".join("write -P 0xaa %d 10\n" % o for o in offsets) + "quit\n"
        run = command("qemu-io", "--image-opts", options, text=words.encode())
        show("qemu-io, one process", cost(run, command("qemu-io", "--image-opts", options, text=b"quit\n"), 3), base)
    try:
        import nbd
    except ImportError:
        return
    if shutil.which("nbdkit"):
        h = nbd.NBD()
        h.connect_command(["nbdkit", "--single", "--exit-with-parent", "--filter=blocksize", "file", image, "minblock=512"])
        data = b"\xaa" * 10
        show("nbdkit, over a socket", cost(lambda: [h.pwrite(data, o) for o in offsets], lambda: None, 3), base)
        h.shutdown()


def zeroes(where):
    """Zeroes over 1 GiB that is written, on the file system of this folder."""
    if not shutil.which("qemu-io"):
        return
    path = where + "/peers_speed.zero"
    ways = {"pitchcase zero": [program, "zero", path, "0", "1G"], "qemu-io write -z": ["qemu-io", "-f", "raw", "-c", "write -z 0 1G", path],
            "qemu-io write -zu": ["qemu-io", "-f", "raw", "-c", "write -zu 0 1G", path]}
    times = {name: [] for name in ways}
    try:
        for _ in range(3):
            for name, words in ways.items():
                with open(path, "wb") as f:
                    for _ in range(1024):
                        f.write(b"x" * (1 << 20))
                    os.fsync(f.fileno())
                times[name].append(timed(command(*words)))
    finally:
        os.unlink(path)
    print("1 GiB zeroed, %s: %s" % (where, ", ".join("%s %.3f s" % (name, min(t)) for name, t in times.items())))


def main():
    with open(image, "wb") as f:
        f.write(bytes(SIZE + 8192))
    with open(script, "w") as f:
        f.writelines("write %d aaaaaaaaaaaaaaaaaaaa\n" % o for o in offsets)
    open(empty, "w").close()
    edits()
    zeroes(folder)
    zeroes("target")


main()
