"""hard.py PITCHCASE FOLDER FAULTS: what a shell cannot try well. Started by `run`, which says what is tried.

FAULTS is faults.c as a shared library, or empty: then the tests that need it are left out. Exit status 0 where all is as expected.
"""
import errno
import itertools
import json
import os
import pty
import random
import resource
import shutil
import signal
import subprocess
import sys
import time

PROGRAM, FOLDER, FAULTS = sys.argv[1], sys.argv[2], sys.argv[3]
# The signals that pitchcase notes.
SIGNALS = (signal.SIGINT, signal.SIGTERM, signal.SIGHUP)
os.chdir(FOLDER)
count = 0


class Wrong(Exception):
    pass


def check(holds, *what):
    if not holds:
        raise Wrong(" ".join(str(w) for w in what))


def pitchcase(*words, text=None, status=0, faults=None, **more):
    """Runs it; standard output and standard error. Another status than the one expected is wrong."""
    global count
    count += 1
    environment = dict(os.environ)
    if faults:
        environment.update(faults, LD_PRELOAD=FAULTS)
    more = {"stdout": subprocess.PIPE, "stderr": subprocess.PIPE, **more}
    given = {"input": text} if text is not None else {"stdin": more.pop("stdin", subprocess.DEVNULL)}
    ran = subprocess.run([PROGRAM, *map(str, words)], env=environment, timeout=60, **given, **more)
    wanted = status if isinstance(status, tuple) else (status,)
    check(ran.returncode in wanted, "pitchcase", *words, "ended with", ran.returncode, "instead of", status, ran.stderr)
    return ran


def write(path, content):
    with open(path, "wb") as f:
        f.write(content)


def read(path):
    with open(path, "rb") as f:
        return f.read()


def without_progress(text):
    """Standard error but for the lines of progress, which come by the clock."""
    return b"".join(line for line in text.splitlines(True) if not line.endswith(b" MiB/s\n"))


def random_bytes(rng, n):
    return rng.getrandbits(8 * n).to_bytes(n, "little") if n else b""


# --- Descriptors and standard output ---

IMAGE = bytes(range(256)) * 8
CHANGES = {
    "edit": ("edit", "image", 600, "--hex", "ffff"),
    "zero": ("zero", "image", 600, 2),
    "discard": ("discard", "image", 512, 512),
    "fleet": ("fleet", "image", "script"),
    "bad fleet": ("fleet", "image", "bad"),
    "sheet": ("sheet", "image", "sheet"),
    "bad sheet": ("sheet", "image", "bad"),
    "look": ("look", "image", 0, 100),
    "info": ("info", "image"),
}


def edited(name):
    """What the image may be afterwards."""
    if name in ("edit", "fleet", "sheet"):
        return [IMAGE[:600] + b"\xff\xff" + IMAGE[602:]]
    if name == "zero":
        return [IMAGE[:600] + bytes(2) + IMAGE[602:]]
    if name == "discard":
        return [IMAGE, IMAGE[:512] + bytes(512) + IMAGE[1024:]]
    return [IMAGE]


def closed_descriptors():
    """Each combination of 0, 1 and 2 closed: the image never gets one of their numbers."""
    write("script", b"write 600 ffff\nread 0 64\n")
    write("bad", b"write 600 ffff\nwipe 0 1\n")
    write("sheet", b"write 601 ff\nwrite 600 ff\n")
    for closed in itertools.chain.from_iterable(itertools.combinations((0, 1, 2), n) for n in range(4)):
        for name, words in CHANGES.items():
            write("image", IMAGE)
            status = 1 if 1 in closed else 2 if name.startswith("bad") else 0
            pitchcase(*words, status=status, preexec_fn=lambda: [os.close(d) for d in closed])
            check(read("image") in ([IMAGE] if status else edited(name)), name, "with", closed, "closed left other bytes")
    for words in (("fleet", "image", "-"), ("sheet", "image", "-"), ("edit", "image", 0, "--from", "-")):
        write("image", IMAGE)
        ran = pitchcase(*words, status=2, preexec_fn=lambda: os.close(0))
        check(b"standard input is closed" in ran.stderr and read("image") == IMAGE, words, ran.stderr)


def full_output():
    """A standard output that takes nothing ends a run before it touches anything."""
    for name, words in CHANGES.items():
        if name.startswith("bad"):
            continue
        write("image", IMAGE)
        with open("/dev/full", "wb") as full:
            ran = pitchcase(*words, status=1, stdout=full)
        check(b"no space left on device (28); " in ran.stderr and ran.stderr.count(b"\n") == 1, name, ran.stderr)
        check(read("image") == IMAGE, name, "with a full standard output changed the image")
        reader, writer = os.pipe()
        os.close(reader)
        ran = pitchcase(*words, status=1, stdout=writer)
        os.close(writer)
        check(b"broken pipe (32); " in ran.stderr and read("image") == IMAGE, name, "with a broken pipe:", ran.stderr)
    with open("/dev/full", "wb") as full:
        pitchcase("--help", status=1, stdout=full)


def output_that_ends():
    """A reader who goes away in the middle of a fleet: what is out is finished, nothing new begun, status 1."""
    write("image", bytes(1 << 20))
    write("many", b"".join(b"read 0 65536\nwrite %d ff\n" % (4096 * i) for i in range(256)))
    process = subprocess.Popen([PROGRAM, "fleet", "image", "many"], stdout=subprocess.PIPE, stderr=subprocess.PIPE)
    process.stdout.read(100)
    process.stdout.close()
    said = process.stderr.read()
    check(process.wait() == 1 and b"broken pipe (32); not all jobs were done" in said, process.returncode, said)
    left = read("image")
    done = [left[4096 * i] for i in range(256)]
    check(set(done) == {0, 255} and sum(left) == sum(done), "a fleet whose reader went away changed other bytes, or did all")


# --- Locks ---


def two_processes():
    """Both edit one block at the same time: who says done has its bytes there, who is refused has not."""
    refused = 0
    for _ in range(60):
        write("image", bytes(512))
        pair = [subprocess.Popen([PROGRAM, "edit", "image", str(at), "--hex", "ff" * 10], stdout=subprocess.DEVNULL,
                                 stderr=subprocess.PIPE) for at in (100, 300)]
        wanted = bytearray(512)
        for process, at in zip(pair, (100, 300)):
            said = process.communicate()[1]
            check(process.returncode in (0, 2), "one of two ended with", process.returncode, said)
            if process.returncode == 0:
                wanted[at:at + 10] = b"\xff" * 10
            else:
                refused += 1
                check(b"under a lock" in said and said.count(b"\n") == 1, "one of two was refused:", said)
        check(read("image") == wanted, "two processes lost an edit")
    return "%d of 120 refused" % refused


def started(*words, faults=None, **more):
    """Starts it, and waits until it notes signals."""
    environment = dict(os.environ, **(dict(faults, LD_PRELOAD=FAULTS) if faults else {}))
    more = {"stdout": subprocess.DEVNULL, "stderr": subprocess.DEVNULL, **more}
    process = subprocess.Popen([PROGRAM, *map(str, words)], env=environment, **more)

    def is_noting():
        with open("/proc/%d/status" % process.pid) as f:
            caught = next(line for line in f if line.startswith("SigCgt:"))
        return int(caught.split()[1], 16) >> (signal.SIGINT - 1) & 1

    wait_until(lambda: process.poll() is not None or is_noting(), "no signal is noted")
    return process


def wait_until(holds, what):
    deadline = time.monotonic() + 30
    while not holds():
        check(time.monotonic() < deadline, what, "in 30 seconds")
        time.sleep(0.005)


def lock_of(path):
    return json.loads(pitchcase("info", path, "--json").stdout)["lock"]


def end(process):
    process.kill()
    process.wait()


def locks():
    """Readers share; one who changes is alone; a lock ends with its process."""
    write("image", bytes(512))
    slow = {"FAULT_DELAY_US": "60000000"}
    reader = started("look", "image", 0, 1, faults=slow)
    wait_until(lambda: lock_of("image") == "held to read", "no lock to read")
    pitchcase("look", "image", 0, 1)
    ran = pitchcase("edit", "image", 0, "--hex", "aa", status=2)
    check(b"another process has it open under a lock" in ran.stderr, ran.stderr)
    pitchcase("edit", "image", 0, "--hex", "aa", "--plan")
    ran = pitchcase("sheet", "image", "-", text=b"write 0 aa\n", status=2)
    check(b"another process has it open under a lock" in ran.stderr, ran.stderr)
    pitchcase("sheet", "image", "-", "--plan", text=b"write 0 aa\n")
    pitchcase("sheet", "image", "-", text=b"# nothing to change\n")
    end(reader)
    changer = started("edit", "image", 1, "--hex", "bb", faults=slow)
    wait_until(lambda: lock_of("image") == "held to change", "no lock to change")
    ran = pitchcase("look", "image", 0, 1, status=2)
    check(b"another process is changing it" in ran.stderr, ran.stderr)
    pitchcase("edit", "image", 0, "--hex", "aa", status=2)
    ran = pitchcase("look", "image", 0, 1, "--no-lock")
    check(b"either's edits may be lost" in ran.stderr, ran.stderr)
    end(changer)
    write("sheet", b"write 1 bb\nwrite 100 cc\n")
    changer = started("sheet", "image", "sheet", faults=slow)
    wait_until(lambda: lock_of("image") == "held to change", "no lock to change")
    ran = pitchcase("sheet", "image", "-", text=b"write 0 aa\n", status=2)
    check(b"another process has it open under a lock" in ran.stderr and ran.stderr.count(b"\n") == 1, ran.stderr)
    end(changer)
    check(lock_of("image") == "free" and read("image") == bytes(512), "a lock is left, or a byte has changed")


def peers_lock():
    """An image that qemu has open is seen to be in use, and the other way round."""
    if not shutil.which("qemu-io"):
        return "no qemu-io: left out"
    write("image", bytes(65536))
    holder = subprocess.Popen(["qemu-io", "-f", "raw", "-c", "sleep 60000", "image"], stdout=subprocess.DEVNULL)
    wait_until(lambda: lock_of("image") != "free", "qemu-io took no lock")
    ran = pitchcase("edit", "image", 0, "--hex", "aa", status=2)
    check(b"another process has it open under a lock" in ran.stderr, ran.stderr)
    end(holder)
    changer = started("edit", "image", 0, "--hex", "aa", faults={"FAULT_DELAY_US": "60000000"}) if FAULTS else None
    if changer:
        wait_until(lambda: lock_of("image") == "held to change", "no lock to change")
        ran = subprocess.run(["qemu-io", "-f", "raw", "-c", "write 0 512", "image"], stdout=subprocess.PIPE, stderr=subprocess.STDOUT)
        check(b"lock" in ran.stdout, "qemu-io takes an image that is being changed:", ran.stdout)
        check(read("image") == bytes(65536), "qemu-io changed an image that is being changed")
        end(changer)
    pitchcase("edit", "image", 0, "--hex", "aa")
    return None


def direct_files():
    """Past the system's cache: any range, any row that is aligned enough; an image of an odd length is refused."""
    rng = random.Random(23)
    plain = bytearray(random_bytes(rng, 1 << 18))
    write("image", bytes(plain))
    try:
        os.close(os.open("image", os.O_RDONLY | os.O_DIRECT))
    except OSError:
        ran = pitchcase("look", "image", 0, 1, "--direct", status=2)
        check(b"its file system takes no --direct" in ran.stderr, ran.stderr)
        return "this file system takes none: refused"
    align = json.loads(pitchcase("info", "image", "--direct", "--json").stdout)["align"]
    for n in range(30):
        at = rng.randrange(len(plain))
        new = random_bytes(rng, min(rng.choice((1, 10, 512, 5000, 70000)), len(plain) - at))
        options = rng.choice(((), ("--drive", 3), ("--out", 1), ("--share", "16K")))
        write("bytes", new)
        pitchcase("edit", "image", at, "--from", "bytes", "--direct", *options)
        plain[at:at + len(new)] = new
        check(read("image") == plain, "a direct edit", n, "at", at, options)
        check(pitchcase("look", "image", at, len(new), "--raw", "--direct", *options).stdout == new, "a direct look", n)
    for options in ((), ("--drive", 3), ("--out", 1)):
        save_sheet(rng, "image", plain, "--direct", *options)
        check(read("image") == plain, "a direct sheet", options)
    for words in (("--drive", 0), ("--align", "1,512,512,512")):
        ran = pitchcase("edit", "image", 0, "--hex", "aa", "--direct", *words, status=2 if align[0] > 1 else (0, 2))
        check(ran.returncode == 0 or b"--direct: needs alignments" in ran.stderr, ran.stderr)
    os.truncate("image", (1 << 18) - 1)
    ran = pitchcase("edit", "image", 0, "--hex", "aa", "--direct", status=2)
    check(b"is no multiple of its block" in ran.stderr, ran.stderr)
    return None


def odd_words():
    """Names and text that are no UTF-8, and names with blanks, tabs and line ends: a refusal stays one line."""
    name = b"an image\n\t\xff"
    write(name, IMAGE)
    for words in ((b"edit", name, b"0", b"--text", b"\xff\x80x"), (b"look", name, b"0", b"3"), (b"info", name)):
        ran = subprocess.run([PROGRAM, *words], stdout=subprocess.PIPE, stderr=subprocess.PIPE)
        check(ran.returncode == 0, words, ran.stderr)
    check(read(name) == b"\xff\x80x" + IMAGE[3:], "a text that is no UTF-8")
    for words in ((b"look", b"no\nsuch\xff", b"0", b"1"), (b"look", name, b"0\n1", b"1"), (b"lo\nok",), (b"look", name, b"0", b"1", b"--a\nb"),
                  (b"look", name, b"0", b"1", b"\xff\n"), (b"fleet", name, b"no\nsuch"), (b"sheet", name, b"no\nsuch"),
                  (b"edit", name, b"0", b"--from", b"no\nsuch")):
        ran = subprocess.run([PROGRAM, *words], stdout=subprocess.PIPE, stderr=subprocess.PIPE)
        check(ran.returncode == 2 and ran.stderr.count(b"\n") == 1 and ran.stderr.endswith(b"\n"), words, ran.stderr)
    os.unlink(name)


# --- Runs that end early ---


def old_or_new(before, after, edits, done=None):
    """Each byte of an edit is old or new, and no other has changed; `done` are the edits that must be there."""
    rest = bytearray(after)
    for i, (at, new) in enumerate(edits):
        for j, byte in enumerate(new):
            got = after[at + j]
            check(got in (before[at + j], byte), "byte", at + j, "is neither old nor new")
            check(done is None or i not in done or got == byte, "byte", at + j, "of a job that was done is old")
            rest[at + j] = before[at + j]
    check(rest == before, "a byte outside the edits has changed")


def scattered_edits(rng, size, n):
    """Edits of ten bytes, no two of which share one, many of which share a block."""
    places = rng.sample(range(size // 16), n)
    return [(16 * p + rng.randrange(6), random_bytes(rng, 10)) for p in places]


def write_script(path, edits):
    write(path, b"".join(b"write %d %s\n" % (at, new.hex().encode()) for at, new in edits))


def killed():
    """kill -9 in the middle of a fleet."""
    rng = random.Random(9)
    middle = 0
    for i in range(12):
        before = random_bytes(rng, 1 << 20)
        edits = scattered_edits(rng, 1 << 20, 20000)
        write("image", before)
        write_script("script", edits)
        words = [PROGRAM, "fleet", "image", "script", "--out", "8" if i % 2 else "1"]
        process = subprocess.Popen(words, stdout=subprocess.DEVNULL)
        while read("image") == before and process.poll() is None:
            pass
        time.sleep(rng.random() * 0.03)
        process.kill()
        process.wait()
        after = read("image")
        old_or_new(before, after, edits)
        new = sum(after[at:at + 10] == b for at, b in edits)
        middle += 0 < new < len(edits)
        pitchcase("edit", "image", 0, "--hex", "00")  # the lock has gone with it
    check(middle > 0, "no fleet was killed in its middle")
    return "%d of 12 in the middle" % middle


def lines_of(text, what, noun="line"):
    """The numbers of `what: lines 1-3, 5`."""
    for line in text.decode().splitlines():
        if line.startswith("%s: %s" % (what, noun)):
            numbers = set()
            for run in line.split(" ", len(what.split()) + 1)[-1].split(", "):
                first, _, last = run.partition("-")
                numbers.update(range(int(first), int(last or first) + 1))
            return numbers
    return set()


def interrupted():
    """On SIGINT, SIGTERM and SIGHUP nothing new is begun, what is out is finished, and the lines done and not done are listed."""
    rng = random.Random(3)
    jobs = 1500
    for sign, out in itertools.product(SIGNALS, (1, 8)):
        before = random_bytes(rng, 65536)
        edits = scattered_edits(rng, 65536, jobs)
        write("image", before)
        write_script("script", edits)
        process = started("fleet", "image", "script", "--out", out, faults={"FAULT_DELAY_US": "4000"}, stdout=subprocess.PIPE,
                          stderr=subprocess.PIPE)
        wait_until(lambda: read("image") != before, "nothing was written")
        process.send_signal(sign)
        said, messages = process.communicate(timeout=30)
        check(process.returncode == 130 and b"pitchcase: interrupted: " in messages, sign, process.returncode, messages)
        done, unbegun = lines_of(said, "done"), lines_of(said, "not begun")
        check(done and unbegun and not done & unbegun and len(done | unbegun) == jobs, "lines listed:", said[-500:])
        after = read("image")
        old_or_new(before, after, edits, {line - 1 for line in done})
        left = [edits[line - 1][0] for line in unbegun]
        check(all(after[at:at + 10] == before[at:at + 10] for at in left), "a job not begun is there")


def interrupted_twice():
    """The second one ends it at once; one while nothing is begun ends it with nothing touched."""
    write("image", IMAGE)
    process = started("edit", "image", 0, "--hex", "ff", faults={"FAULT_DELAY_US": "60000000"})
    wait_until(lambda: lock_of("image") == "held to change", "no lock to change")
    start = time.monotonic()
    process.send_signal(signal.SIGINT)
    time.sleep(0.1)
    process.send_signal(signal.SIGINT)
    check(process.wait() == 130 and time.monotonic() - start < 30, "a second SIGINT:", process.returncode)
    process = started("fleet", "image", "-", stdin=subprocess.PIPE, stderr=subprocess.PIPE)
    process.stdin.write(b"write 0 ff\n")
    process.stdin.flush()
    time.sleep(0.1)
    process.send_signal(signal.SIGINT)
    said = process.stderr.read()
    check(process.wait() == 130 and b"nothing was begun" in said and read("image") == IMAGE, "SIGINT while a script is typed:", said)


def ignored():
    """What was ignored when it was started, as SIGHUP is under nohup and SIGINT in the background of a script, stays ignored."""
    write("image", IMAGE)
    heeded = [signal.signal(sign, signal.SIG_IGN) for sign in SIGNALS]
    process = subprocess.Popen([PROGRAM, "edit", "image", "0", "--hex", "ff"], stdout=subprocess.DEVNULL, stderr=subprocess.PIPE,
                               env=dict(os.environ, LD_PRELOAD=FAULTS, FAULT_DELAY_US="1000000"))
    for sign, handler in zip(SIGNALS, heeded):
        signal.signal(sign, handler)
    wait_until(lambda: process.poll() is not None or lock_of("image") == "held to change", "no lock to change")
    check(process.poll() is None, "it ended before a signal was sent")
    for sign in SIGNALS:
        process.send_signal(sign)
    said = process.communicate(timeout=30)[1]
    check(process.returncode == 0 and read("image") == b"\xff" + IMAGE[1:], "signals that were ignored ended it:", process.returncode, said)


def long_zeroing():
    """A long zeroing that is interrupted says how far it came."""
    size = 1 << 30
    with open("long", "wb") as f:
        f.truncate(size)
    process = started("zero", "long", 0, size, "--alloc", "--share", "4K", faults={"FAULT_FALLOCATE": "0,95", "FAULT_DELAY_US": "1"},
                      stdout=subprocess.PIPE, stderr=subprocess.PIPE)
    wait_until(lambda: os.stat("long").st_blocks > 0, "nothing was written")
    process.send_signal(signal.SIGINT)
    said, messages = process.communicate(timeout=60)
    check(process.returncode == 130 and b"partly done: " in said, process.returncode, said, messages)
    os.unlink("long")


# --- Transfers that misbehave ---


def short_and_interrupted():
    """Short transfers are continued, interrupted ones tried again."""
    rng = random.Random(5)
    for faults in ({"FAULT_SHORT": "1"}, {"FAULT_EINTR": "1"}, {"FAULT_SHORT": "1", "FAULT_EINTR": "1"}):
        before = random_bytes(rng, 200001)
        new = random_bytes(rng, 150000)
        write("image", before)
        write("bytes", new)
        pitchcase("edit", "image", 777, "--from", "bytes", faults=faults)
        check(read("image") == before[:777] + new + before[150777:], "an edit with", faults)
        check(pitchcase("look", "image", 777, 150000, "--raw", faults=faults).stdout == new, "a look with", faults)
        pitchcase("zero", "image", 1000, 100000, faults=faults)
        pitchcase("zero", "image", 1000, 100000, "--alloc", faults=faults)
        check(read("image")[:777 + 223 + 100000] == before[:777] + new[:223] + bytes(100000), "a zero with", faults)


def failures():
    """What the drive says is the answer, with status 1; EPERM is no 'unsupported', and other bytes stay."""
    edit = ("edit", "image", 600, "--hex", "ffff", "--drive", 1)
    for faults, why in (({"FAULT_READ": "2,5"}, b"input/output error (5)"), ({"FAULT_READ": "3,5"}, b"input/output error (5)"),
                        ({"FAULT_WRITE": "1,28"}, b"no space left on device (28)"), ({"FAULT_WRITE": "1,1"}, b"permission denied (13)")):
        write("image", IMAGE)
        ran = pitchcase(*edit, status=1, faults=faults)
        check(ran.stderr == b"pitchcase: failed: write 600+2 (0x258): " + why + b"\n", faults, ran.stderr)
        check(read("image") == IMAGE, faults, "changed the image")
    write("image", IMAGE)
    ran = pitchcase(*edit, status=1, faults={"FAULT_READ": "1,5"})
    check(ran.stderr == b"pitchcase: failed: read 600+2 (0x258): input/output error (5)\n" and read("image") == IMAGE, ran.stderr)
    ran = pitchcase(*edit, status=1, faults={"FAULT_FSYNC": "1,5"})
    check(ran.stderr == b"pitchcase: failed: fsync: input/output error (5)\n", ran.stderr)
    for command, status, trace in ((("zero",), 1, b"failed: permission denied (13)"), (("discard",), 1, b"failed: permission denied (13)")):
        write("image", IMAGE)
        ran = pitchcase(*command, "image", 512, 512, "--trace", status=status, faults={"FAULT_FALLOCATE": "0,1"})
        check(trace in ran.stdout and read("image") == IMAGE, command, "with EPERM:", ran.stdout)
    for number in (errno.EOPNOTSUPP, errno.ENOSYS):
        for command, left in (("zero", bytes(512)), ("discard", IMAGE[512:1024])):
            write("image", IMAGE)
            ran = pitchcase(command, "image", 512, 512, "--trace", "--drive", 1, faults={"FAULT_FALLOCATE": "0,%d" % number})
            check(b"unsupported" in ran.stdout and read("image") == IMAGE[:512] + left + IMAGE[1024:], command, number, ran.stdout)


def long_edit_that_fails():
    """A long edit is made in several jobs: after one has failed, none of the others is begun."""
    before, new = bytes(4 << 20), b"\xff" * (3 << 20)
    write("bytes", new)
    for out in (1, 8):
        write("image", before)
        ran = pitchcase("edit", "image", 65536, "--from", "bytes", "--out", out, status=1, faults={"FAULT_WRITE": "3,28"})
        check(ran.stderr == b"pitchcase: failed: write 65536+3145728 (0x10000): no space left on device (28)\n", ran.stderr)
        left = read("image")
        old_or_new(before, left, [(65536, new)])
        check(left.count(b"\xff") <= 20 * 65536, "a long edit went on after a failure: %d bytes" % left.count(b"\xff"))


def fleet_that_fails():
    """After a failure none is begun any more; those out are finished, and the lines are listed."""
    write("image", bytes(65536))
    write("script", b"".join(b"write %d ff\n" % (512 * i + 7) for i in range(100)))
    ran = pitchcase("fleet", "image", "script", "--drive", 1, status=1, faults={"FAULT_WRITE": "10,5"})
    done, failed, unbegun = (lines_of(ran.stdout, w) for w in ("done", "failed", "not begun"))
    check(len(failed) == 1 and unbegun and done | failed | unbegun == set(range(1, 101)), ran.stdout)
    left = read("image")
    check({i + 1 for i in range(100) if left[512 * i + 7]} == done and sum(left) == 255 * len(done), "a fleet that fails left other bytes")
    check(ran.stderr.startswith(b"pitchcase: failed: line %d: write " % min(failed)), ran.stderr)


def out_together():
    """With --out 8 reads are out eight together, from the first to the last: each waits until eight are there. With --out 7 there
    are never eight, with --out 1 never two, and none goes on."""
    write("image", bytes(65536))
    reads = [b"read %d 512\n" % (512 * i) for i in range(128)]
    write("script", b"".join(reads))
    write("two", b"".join(reads[:2]))
    pitchcase("fleet", "image", "script", "--out", 8, faults={"FAULT_TOGETHER": "8,20"})
    for script, out, together in (("script", 7, "8,1"), ("two", 1, "2,1")):
        ran = pitchcase("fleet", "image", script, "--out", out, status=1, faults={"FAULT_TOGETHER": together})
        done, failed = lines_of(ran.stdout, "done"), lines_of(ran.stdout, "failed")
        check(not done and failed and failed <= set(range(1, 9)) and b" (62)\n" in ran.stderr, out, ran.stdout, ran.stderr)


def full_disk():
    """No space left, or a limit on the file's length where nothing can be mounted."""
    def limit():
        resource.setrlimit(resource.RLIMIT_FSIZE, (65536, 65536))

    before = bytes(65536 * 2)
    write("image", before)
    ran = pitchcase("edit", "image", 65000, "--hex", "ff" * 1000, status=1, preexec_fn=limit)
    check(b"file too large (27)" in ran.stderr, ran.stderr)
    old_or_new(before, read("image"), [(65000, b"\xff" * 1000)])
    if os.geteuid() != 0 or subprocess.run(["mount", "-t", "tmpfs", "-o", "size=1M", "tmpfs", "."], cwd=mount_point(),
                                           stderr=subprocess.DEVNULL).returncode:
        return "no file system can be mounted: by a limit alone"
    try:
        image = "mount/image"
        with open(image, "wb") as f:
            f.truncate(8 << 20)
        write("bytes", b"x" * (4 << 20))
        ran = pitchcase("edit", image, 1, "--from", "bytes", status=1)
        check(b"no space left on device (28)" in ran.stderr, ran.stderr)
        check(os.path.getsize(image) == 8 << 20 and set(read(image)) <= {0, 120}, "a full disk left other bytes")
        pitchcase("zero", image, 0, 8 << 20)
        check(not any(read(image)), "zeroes on a full disk")
        ran = pitchcase("zero", image, 0, 8 << 20, "--alloc", status=1)
        check(b"no space left on device (28)" in ran.stderr and not any(read(image)), ran.stderr)
        full_of_tables()
    finally:
        subprocess.run(["umount", "mount"], check=True)


def full_of_tables():
    """On a disk that is full no table is made, and an old one stays."""
    write("rows", b"1,1,1,1\n" * 64)
    pitchcase("table", "make", "rows", "mount/old")
    old = read("mount/old")
    with open("mount/rest", "wb", buffering=0) as rest:
        try:
            while rest.write(bytes(4096)):
                pass
        except OSError as error:
            check(error.errno == errno.ENOSPC, error)
    names = sorted(os.listdir("mount"))
    for words in (("mount/new",), ("mount/old", "--replace")):
        ran = pitchcase("table", "make", "rows", *words, status=1)
        check(b"TABLE %s: no space left on device (28); nothing was made\n" % words[0].encode() in ran.stderr, ran.stderr)
    check(read("mount/old") == old and sorted(os.listdir("mount")) == names, "a full disk left", os.listdir("mount"))


def mount_point():
    os.makedirs("mount", exist_ok=True)
    return "mount"


# --- Sizes ---


def sizes():
    """Images of 0, 1 and 2^32 + 1 bytes; an edit never changes the length by itself."""
    write("image", b"")
    pitchcase("look", "image", 0, 0)
    pitchcase("edit", "image", 0, "--hex", "aa", status=2)
    pitchcase("edit", "image", 3, "--hex", "aa", "--grow")
    check(read("image") == b"\0\0\0\xaa", "an empty image that grows:", read("image"))
    write("image", b"a")
    pitchcase("edit", "image", 0, "--text", "b")
    pitchcase("zero", "image", 0, 1)
    check(read("image") == b"\0", "an image of one byte:", read("image"))
    pitchcase("discard", "image", 0, 1)
    size = (1 << 32) + 1
    with open("image", "wb") as f:
        f.truncate(size)
    pitchcase("edit", "image", "4G", "--hex", "aa")
    pitchcase("edit", "image", (1 << 32) - 1, "--hex", "bbcc", "--drive", 3)
    ran = pitchcase("look", "image", "0xfffffffe", 3)
    check(b"0xfffffffe 4294967294  00 bb cc " in ran.stdout, ran.stdout)
    pitchcase("zero", "image", 0, size)
    pitchcase("edit", "image", size, "--hex", "aa", status=2)
    pitchcase("discard", "image", 5, size - 5)
    stat = os.stat("image")
    check(stat.st_size == size and stat.st_blocks * 512 < 1 << 20, "a sparse image has", stat.st_size, "bytes,", stat.st_blocks, "blocks")
    os.unlink("image")


ROWS = ((1, 1, 1, 1), (1, 512, 512, 512), (512, 512, 4096, 4096), (4096, 4096, 4096, 65536), (4096, 512, 512, 512),
        (4096, 512, 4096, 65536))


def drawn_share(rng, row):
    mem, req, zero, _ = ROWS[row]
    unit = max(mem, req)
    least = -(-(2 * zero + 2 * unit) // unit) * unit
    return rng.choice((least, least + unit * rng.randrange(9), 65536))


def random_fleets():
    """Random scripts of jobs that do not overlap between barriers, on images of any length, against plain bytes."""
    rng = random.Random(17)
    for n in range(120):
        size = rng.choice((0, 1, 511, 513, 4096, 10000, 65537, rng.randrange(200000)))
        plain = bytearray(random_bytes(rng, size))
        write("image", bytes(plain))
        grow = rng.random() < 0.3
        most = size + rng.randrange(10000) if grow else size
        lines, reads, unknown, end = [], [], set(), size
        for _ in range(rng.randrange(6)):
            at = 0
            while at < most and rng.random() < 0.9:
                at += rng.randrange(most - at) // rng.choice((1, 3, 20, 200))
                length = rng.choice((1, 10, rng.randrange(600), rng.randrange(20000)))
                length = min(length, most - at)
                verb = rng.choice(("write", "write", "zero", "alloc", "read", "discard"))
                new = random_bytes(rng, length) if verb == "write" else bytes(length)
                if verb == "write" and not length:
                    continue
                lines.append("%s %s %s" % (verb, rng.choice((str(at), hex(at))), new.hex() if verb == "write" else length))
                if verb in ("write", "zero", "alloc"):
                    end = max(end, at + length)
                    plain.extend(bytes(max(0, end - len(plain))))
                    plain[at:at + length] = new
                    unknown.difference_update(range(at, at + length))
                elif verb == "discard":
                    unknown.update(range(at, at + length))
                elif not unknown.intersection(range(at, at + length)):
                    reads.append((len(lines), at, bytes(plain[at:at + length]).ljust(length, b"\0")))
                at += length
            lines.append("barrier")
        row = rng.randrange(6)
        words = ["--drive", row, "--share", drawn_share(rng, row)] + (["--grow"] if grow else [])
        words += rng.choice(([], ["--out", rng.randint(1, 8)], ["--order", "round"], ["--order", rng.getrandbits(64)]))
        write("script", "\n".join(lines).encode())
        events = [json.loads(line) for line in pitchcase("fleet", "image", "script", "--json", *words).stdout.splitlines()]
        shown = {(e["line"], e["offset"]): e["hex"] for e in events if e["event"] == "bytes"}
        for line, at, wanted in reads:
            got = "".join(shown[key] for key in sorted(shown) if key[0] == line)
            check(got == wanted.hex(), "run", n, "line", line, "read other bytes at", at, words)
        left = read("image")
        check(len(left) == end, "run", n, "left", len(left), "bytes instead of", end)
        wrong = [i for i in range(end) if left[i] != plain[i] and i not in unknown]
        check(not wrong, "run", n, "left other bytes at", wrong[:5], words)
    return "120 fleets"


# --- Sheets ---


class Refused(Exception):
    """A sheet is refused."""


def joined(writes):
    """The request's sentences, byte by byte, read once more and by themselves: the ranges, as offset, bytes and lines.

    A write is line, offset and bytes."""
    if len(writes) > 64 or any(not new or at + len(new) > 2 ** 64 - 1 for _, at, new in writes):
        raise Refused
    content, lines = {}, {}
    for line, at, new in writes:
        for i, byte in enumerate(new):
            content[at + i] = byte
            lines.setdefault(at + i, set()).add(line)
    ranges = []
    for at in sorted(content):
        if not ranges or ranges[-1][0] + len(ranges[-1][1]) != at:
            ranges.append((at, bytearray(), set()))
        ranges[-1][1].append(content[at])
        ranges[-1][2].update(lines[at])
    return ranges


def typed(rng, writes, end):
    """The text of writes, with lines that say nothing between them; and the writes with the lines that they got."""
    text, placed = [], []
    for at, new in writes:
        while rng.random() < 0.2:
            text.append(rng.choice(("", "# a comment: write 0 00", " \t")))
        digits = rng.choice((new.hex(), new.hex().upper()))
        text.append(rng.choice(("write %s %s", "  write  %s\t%s ")) % (rng.choice((str(at), hex(at))), digits))
        placed.append((len(text), at, new))
    return end.join(text) + rng.choice(("", end)), placed


def runs_of(numbers):
    """Numbers that follow each other, as first and last."""
    runs = []
    for number in sorted(numbers):
        if runs and runs[-1][1] + 1 == number:
            runs[-1][1] = number
        else:
            runs.append([number, number])
    return runs


def drawn_writes(rng, size):
    """Offsets and bytes of writes, most of which overlap or touch others."""
    writes, at = [], 0
    longest = rng.choice((3, 20, 300, 5000))
    for _ in range(rng.choice((0, 1, 2, 10, 40, 64, 64))):
        length = min(1 + rng.randrange(longest), size)
        if length == 0:
            break
        near = rng.choice((at, at + 1, at - length, at - length // 2, rng.randrange(size - length + 1)))
        start = max(0, min(near, size - length))
        writes.append((start, random_bytes(rng, length)))
        at = start + length
    return writes


def save_sheet(rng, image, plain, *options):
    """Writes a random sheet on an image and on its plain bytes."""
    writes = drawn_writes(rng, len(plain))
    write_script("sheet", writes)
    pitchcase("sheet", image, "sheet", *options)
    for at, new in writes:
        plain[at:at + len(new)] = new


def events_of(ran):
    return [json.loads(line) for line in ran.stdout.splitlines()]


def sheet_is(rng, n, plain, most, options):
    """Writes a random sheet on the image, which has the bytes of `plain`, and compares ranges, requests and bytes."""
    text, writes = typed(rng, drawn_writes(rng, most), rng.choice(("\n", "\r\n")))
    wanted = joined(writes)
    write("sheet", text.encode())
    given = {"text": text.encode()} if rng.random() < 0.3 else {}
    plan = events_of(pitchcase("sheet", "image", "sheet", "--plan", "--json", *options))
    alone = events_of(pitchcase("fleet", "image", "sheet", "--plan", "--json", *options))[-1]["requests"]
    check(read("image") == plain, "run", n, "a plan changed the image")
    events = events_of(pitchcase("sheet", "image", "-" if given else "sheet", "--json", "--trace", *options, **given))
    told = [{"event": "range", "range": i, "verb": "write", "offset": at, "length": len(new), "lines": runs_of(lines)}
            for i, (at, new, lines) in enumerate(wanted, 1)]
    for said in (events, plan):
        ranges = [e for e in said if e["event"] == "range"]
        check(ranges == told, "run", n, ranges, "instead of", told)
    start, last = events[0], events[-1]
    total = sum(len(new) for _, new, _ in wanted)
    check((start["lines"], start["jobs"], start["bytes"]) == (len(writes), len(wanted), total), "run", n, start)
    check(last["status"] == 0 and last["jobs"] == len(wanted) and last["requests"] <= alone, "run", n, last, alone)
    made = sum(e["event"] == "request" for e in events)
    check(last["requests"] == made == plan[-1]["requests"], "run", n, last, made, plan[-1])
    for _, at, new in writes:
        plain.extend(bytes(max(0, at + len(new) - len(plain))))
        plain[at:at + len(new)] = new
    check(read("image") == plain, "run", n, "left other bytes", options)
    return alone, last["requests"]


def random_sheets():
    """Random sheets on images of any length, beside plain bytes that get the lines one after the other."""
    rng = random.Random(14)
    requests = [0, 0]
    for n in range(150):
        size = rng.choice((0, 1, 511, 513, 2048, 10000, 65537, rng.randrange(200000)))
        plain = bytearray(random_bytes(rng, size))
        write("image", bytes(plain))
        row = rng.randrange(6)
        grow = rng.random() < 0.3
        options = ["--drive", row, "--share", drawn_share(rng, row), *(["--grow"] if grow else [])]
        options += rng.choice(([], ["--out", 8], ["--order", "round"], ["--order", n]))
        took = sheet_is(rng, n, plain, size + rng.randrange(5000) if grow else size, options)
        requests = [sum(pair) for pair in zip(requests, took)]
    check(requests[1] * 2 < requests[0], "requests with and without joining:", requests)
    return "%d requests joined, %d without" % (requests[1], requests[0])


def sheets_of_65():
    """63, 64 and 65 lines, apart, touching and at one place; a bad line at any place of 64."""
    rng = random.Random(65)
    before = random_bytes(rng, 4096)
    for lines, step in itertools.product((63, 64, 65, 66, 200), (2, 1, 0)):
        write("image", before)
        writes = [(i + 1, 100 + step * i, random_bytes(rng, 1)) for i in range(lines)]
        text = b"".join(b"write %d %s\n" % (at, new.hex().encode()) for _, at, new in writes)
        ran = pitchcase("sheet", "image", "-", text=text, status=0 if lines <= 64 else 2)
        plain = bytearray(before)
        if lines <= 64:
            for _, at, new in writes:
                plain[at:at + 1] = new
            first = b"sheet image: %d lines, %d range" % (lines, len(joined(writes)))
            check(ran.stdout.startswith(first), lines, step, ran.stdout)
        else:
            said = b"pitchcase: refused: line 65, byte 1: 'write': is write 65, and a sheet has at most 64 (220)\n"
            check(ran.stderr == said and ran.stdout == b"", lines, step, ran.stderr)
        check(read("image") == plain, lines, "lines", step, "apart left other bytes")
    unfit = ((b"write 18446744073709551615 00", b"line %d: "), (b"write 5 ", b"line %d, byte 1: "),
             (b"wipe", b"line %d, byte 1: "))
    for place, (bad, why) in itertools.product((1, 2, 33, 64), unfit):
        text = b"".join(b"%s\n" % (bad if i == place else b"write %d 00" % i) for i in range(1, 65))
        ran = pitchcase("sheet", "image", "-", text=text, status=2)
        check(ran.stderr.startswith(b"pitchcase: refused: " + why % place), place, bad, ran.stderr)
        check(ran.stderr.count(b"\n") == 1 and ran.stdout == b"", place, bad, ran.stderr, ran.stdout)
    check(read("image") == plain, "a sheet that is refused changed the image")


def spread(n=64, step=512):
    """A sheet of n fields of two lines each that touch, with gaps of a block between the fields."""
    return [(step * i + at, bytes([1 + i])) for at in (7, 8) for i in range(n // 2)]


def sheets_that_fail():
    """After a failure no range is begun any more; those out are finished, and the ranges are listed."""
    before = bytes(65536)
    write_script("sheet", spread())
    for out, which in itertools.product((1, 8), (1, 10, 32)):
        write("image", before)
        words = ("sheet", "image", "sheet", "--drive", 1, "--out", out)
        # so slow that a thread that is stopped between its failure and the note of it does not come too late
        slow = "50000" if out == 8 else "0"
        ran = pitchcase(*words, status=1, faults={"FAULT_WRITE": "%d,28" % which, "FAULT_DELAY_US": slow})
        done, failed, unbegun = (lines_of(ran.stdout, w, "range") for w in ("done", "failed", "not begun"))
        check(len(failed) == 1 and done | failed | unbegun == set(range(1, 33)), out, which, ran.stdout)
        check(which == 32 or unbegun, "a sheet that failed went on", ran.stdout)
        at = 512 * (min(failed) - 1) + 7
        said = b"range %d: write %d+2 (0x%x): " % (min(failed), at, at)
        check(without_progress(ran.stderr) == b"pitchcase: failed: " + said + b"no space left on device (28)\n", ran.stderr)
        check(said + b"failed: no space left on device (28): " in ran.stdout, ran.stdout)
        left = read("image")
        check({i + 1 for i in range(32) if left[512 * i + 7]} == done, "a sheet that fails left other bytes")
        old_or_new(before, left, spread())
    write("image", before)
    ran = pitchcase("sheet", "image", "sheet", "--json", status=1, faults={"FAULT_READ": "1,5"})
    events = {e["event"]: e for e in events_of(ran)}
    check(events["ranges"]["failed"] == [[1, 1]] and events["end"]["status"] == 1, events)
    left = read("image")
    check(runs_of(i + 1 for i in range(32) if left[512 * i + 7]) == events["ranges"]["done"], "another range is done")
    ran = pitchcase("sheet", "image", "sheet", status=1, faults={"FAULT_FSYNC": "1,5"})
    check(ran.stderr == b"pitchcase: failed: fsync: input/output error (5)\n", ran.stderr)


def sheets_interrupted():
    """On a signal nothing new is begun, what is out is finished, and the ranges done and not done are listed."""
    before = bytes(65536)
    write_script("sheet", spread())
    for sign, out in itertools.product(SIGNALS, (1, 8)):
        write("image", before)
        slow = {"FAULT_DELAY_US": "100000" if out == 8 else "20000"}  # so that the signal comes before the last range is begun
        process = started("sheet", "image", "sheet", "--drive", 1, "--out", out, faults=slow, stdout=subprocess.PIPE,
                          stderr=subprocess.PIPE)
        wait_until(lambda: read("image") != before, "nothing was written")
        process.send_signal(sign)
        said, messages = process.communicate(timeout=30)
        done, unbegun = lines_of(said, "done", "range"), lines_of(said, "not begun", "range")
        check(process.returncode == 130 and done and unbegun, process.returncode, said)
        check(not done & unbegun and len(done | unbegun) == 32, said)
        what = b"%d range%s done, 0 partly, %d not begun\n" % (len(done), b"" if len(done) == 1 else b"s", len(unbegun))
        check(without_progress(messages) == b"pitchcase: interrupted: " + what, messages)
        left = read("image")
        there = {i for i in range(1, 33) if left[512 * i - 505:512 * i - 503] == bytes([i, i])}
        check(there == done, "there are", there, "and done are", done)
        old_or_new(before, left, [edit for i, edit in enumerate(spread()) if i % 32 + 1 in done])
    process = started("sheet", "image", "-", stdin=subprocess.PIPE, stderr=subprocess.PIPE)
    process.stdin.write(b"write 0 ff\n")
    process.stdin.flush()
    wait_until(lambda: is_waiting(process), "it does not wait")
    process.send_signal(signal.SIGINT)
    said = process.stderr.read()
    check(process.wait() == 130 and b"nothing was begun" in said, "SIGINT while a sheet is typed:", said)
    check(read("image") == left, "SIGINT while a sheet is typed changed the image")
    process.stdin.close()


def long_sheets():
    """A range longer than the share is made in several jobs; also where transfers are short, and where one fails."""
    rng = random.Random(7)
    before = random_bytes(rng, 3 << 20)
    writes = [(999 + 40000 * i, random_bytes(rng, 50000)) for i in range(64)]
    write_script("sheet", writes)
    plain = bytearray(before)
    for at, new in writes:
        plain[at:at + len(new)] = new
    length = 40000 * 63 + 50000
    for options, faults in (((), None), (("--share", "4K", "--out", 8), None), (("--drive", 3, "--order", 5), None),
                            ((), {"FAULT_SHORT": "1", "FAULT_EINTR": "1"}), (("--out", 8), {"FAULT_SHORT": "1"})):
        if faults and not FAULTS:
            continue
        write("image", before)
        ran = pitchcase("sheet", "image", "sheet", *options, faults=faults)
        check(b"sheet image: 64 lines, 1 range, %d bytes\n" % length in ran.stdout, ran.stdout)
        check(b"\n1 range ended: " in ran.stdout, ran.stdout)
        check(read("image") == plain, "a long sheet with", options, faults, "left other bytes")


def long_sheets_that_stop():
    """Of a long range that failed each byte is old or new; one that was interrupted is partly done."""
    rng = random.Random(8)
    before = random_bytes(rng, 3 << 20)
    new = random_bytes(rng, 2 << 20)
    write_script("sheet", [(999, new[:1 << 20]), (999 + (1 << 20), new[1 << 20:])])
    for out in (1, 8):
        write("image", before)
        ran = pitchcase("sheet", "image", "sheet", "--out", out, status=1, faults={"FAULT_WRITE": "3,5"})
        said = b"pitchcase: failed: range 1: write 999+2097152 (0x3e7): input/output error (5)\n"
        check(ran.stderr == said and b"\nfailed: range 1\n" in ran.stdout, ran.stderr, ran.stdout)
        left = read("image")
        old_or_new(before, left, [(999, new)])
        check(left[999:999 + len(new)] != new, "a long sheet went on after a failure")
    write("image", before)
    process = started("sheet", "image", "sheet", "--share", "4K", faults={"FAULT_DELAY_US": "3000"},
                      stdout=subprocess.PIPE, stderr=subprocess.PIPE)
    wait_until(lambda: read("image") != before, "nothing was written")
    process.send_signal(signal.SIGINT)
    said, messages = process.communicate(timeout=30)
    check(process.returncode == 130 and b"\npartly done: range 1: " in said, process.returncode, said)
    check(without_progress(messages) == b"pitchcase: interrupted: 0 ranges done, 1 partly, 0 not begun\n", messages)
    old_or_new(before, read("image"), [(999, new)])


def sheets_from_pipes():
    """A sheet that comes through a pipe, a byte at a time; one that is the image itself is no sheet."""
    write("image", IMAGE)
    os.mkfifo("sheet.pipe")
    process = subprocess.Popen([PROGRAM, "sheet", "image", "sheet.pipe"], stdout=subprocess.PIPE)
    with open("sheet.pipe", "wb", buffering=0) as pipe:
        for byte in b"# two\r\nwrite 601 ff\r\n\r\nwrite 600 ff\r\n":
            pipe.write(bytes([byte]))
    said = process.communicate()[0]
    os.unlink("sheet.pipe")
    check(process.returncode == 0 and b"range 1: write 600+2 (0x258): lines 2, 4\n" in said, said)
    check(read("image") == edited("sheet")[0], "a sheet through a pipe left other bytes")
    ran = pitchcase("sheet", "image", "image", status=2)
    check(ran.stderr.count(b"\n") == 1 and read("image") == edited("sheet")[0], ran.stderr)


def sheet_reader_that_ends():
    """A reader who goes away while a sheet is written is missed at its end: all is done, and the status is 1."""
    write("image", bytes(65536))
    write_script("sheet", spread())
    process = started("sheet", "image", "sheet", "--drive", 1, faults={"FAULT_DELAY_US": "2000"},
                      stdout=subprocess.PIPE, stderr=subprocess.PIPE, bufsize=0)
    check(process.stdout.read(6) == b"sheet ", "the first line is not written at once")
    process.stdout.close()
    said = process.stderr.read()
    check(process.wait() == 1 and b"broken pipe (32); all jobs were done\n" in said, process.returncode, said)
    left = read("image")
    check(all(left[at:at + 1] == new for at, new in spread()) and sum(map(bool, left)) == 64, "it left other bytes")


# --- Drive tables ---

FLEET = ((1, 4096, 4096, 4096), (512, 512, 512, 65536), (65536, 65536, 1, 1), (1, 2048, 32768, 16384))


def record(kind, body=b"", order="little"):
    return (2 + len(body)).to_bytes(2, order) + kind.to_bytes(2, order) + body


def row_record(row, order="little"):
    return record(1, b"".join(align.to_bytes(4, order) for align in row), order)


def table_of(rows):
    return b"".join(map(row_record, rows))


def mixed_table():
    """Rows with records of other kinds before, between and after them."""
    return record(0) + b"".join(row_record(row) + record(2 + 300 * i, bytes(7 * i)) for i, row in enumerate(FLEET))


class Bad(Exception):
    """A table is refused: number, record from 1 on and its first byte; 0 and 0 where it is the end that is bad."""


def decoded(table):
    """The request's sentences, read once more and by themselves: the rows, and how many records are of other kinds."""
    rows, others, at, n = [], 0, 0, 0
    while at < len(table):
        n += 1
        head, rest = table[at:at + 2], table[at + 2:]
        length = head[0] + 256 * head[1] if len(head) == 2 else None
        if length is None or length > len(rest) or length < 2:
            raise Bad(211, n, at)
        content = rest[:length]
        if content[:2] == b"\1\0":
            if length != 18 or len(rows) == 64:
                raise Bad(211, n, at)
            row = [sum(byte << 8 * k for k, byte in enumerate(content[i:i + 4])) for i in range(2, 18, 4)]
            if any(align not in [2 ** k for k in range(17)] for align in row):
                raise Bad(212, n, at)
            rows.append(row)
        else:
            others += 1
        at += 2 + length
    if not rows:
        raise Bad(211, 0, 0)
    return rows, others


def refused_as(said, bad, what):
    """One line, which names number, record and byte."""
    number, n, at = bad.args
    place = b"record %d, byte %d (0x%x): " % (n, at, at) if n else b"has no row "
    check(said.startswith(b"pitchcase: refused: ") and said.count(b"\n") == 1, what, said)
    check(place in said and said.endswith(b" (%d)\n" % number), what, "is", bad.args, "and not", said)


def table_is(table, what):
    """A table is shown, or refused, as the plain decoder says; its number where it is refused, otherwise 0."""
    try:
        rows, others = decoded(table)
    except Bad as bad:
        ran = pitchcase("table", "show", "-", "--json", text=table, status=2)
        check(ran.stdout == b"", what, "is refused, and printed:", ran.stdout)
        refused_as(ran.stderr, bad, what)
        return bad.args[0]
    ran = pitchcase("table", "show", "-", "--json", text=table)
    events = [json.loads(line) for line in ran.stdout.splitlines()]
    wanted = [{"event": "table", "table": "-", "rows": len(rows), "other_records": others}]
    wanted += [{"event": "row", "row": i, "align": row} for i, row in enumerate(rows)]
    check(events == wanted and ran.stderr == b"", what, "is shown as", events, "instead of", wanted)
    return 0


def tables_cut_and_changed():
    """Every cut, every length field off by one, and what else the request names, beside a decoder of its own."""
    before = count
    table = mixed_table()
    numbers = [table_is(table[:end], "cut at %d" % end) for end in range(len(table) + 1)]
    check(numbers.count(0) == 8 and 212 not in numbers, "cuts are told as", numbers)
    at = 0
    while at < len(table):
        length = int.from_bytes(table[at:at + 2], "little")
        for wrong in (length - 1, length + 1, 0, 1, 2, 17, 18, 19, length << 8, 0xffff):
            number = table_is(table[:at] + (wrong & 0xffff).to_bytes(2, "little") + table[at + 2:], "length %d at %d" % (wrong, at))
            check(number == 211 or wrong == length or table[at + 2:at + 4] != b"\1\0", "a row of length", wrong, "is no 211")
        at += 2 + length
    good = row_record(FLEET[0])
    cases = [(b"", 211), (table_of([(1, 1, 1, 1)] * 64), 0), (table_of([(1, 1, 1, 1)] * 65), 211), (record(2) * 500, 211),
             (table_of([(1, 1, 1, 1)] * 64) + row_record((3, 3, 3, 3)), 211), (row_record((0, 1, 1, 1)) + good * 64, 212),
             (good + row_record((3, 1, 1, 1)) + b"\0", 212), (good + b"\0" + row_record((3, 1, 1, 1)), 211),
             (record(1, bytes(15)) + good, 211), (record(1, bytes(17)) + good, 211),
             (b"".join(row_record(row, "big") for row in FLEET), 211), (good[:4] + row_record(FLEET[0], "big")[4:], 212)]
    cases += [(good + bytes(n), 211) for n in (1, 2, 3, 4, 20, 40)]
    cases += [(good + end, 211) for end in (b"\1\0", b"\1\0\1", b"\1\0\1\0", b"\2\0", b"\2\0\2")]
    for kind, length in itertools.product((0, 2, 18, 255, 256, 257, 0x8001, 0xffff), (0, 1, 2, 15, 16, 17, 255, 256, 65533)):
        cases += [(record(kind, bytes([1]) * length) + good, 0), (good + record(kind, bytes([1]) * length), 0)]
    for place, align in itertools.product(range(4), (0, 3, 65535, 65537, 131072, (1 << 24) + 512, (1 << 31) + 1, (1 << 32) - 1)):
        cases.append((good + row_record([align if i == place else 512 for i in range(4)]), 212))
    for place, align in itertools.product(range(4), [2 ** k for k in range(17)]):
        cases.append((row_record([align if i == place else 1 for i in range(4)]), 0))
    for i, (case, wanted) in enumerate(cases):
        check(table_is(case, "case %d" % i) == wanted, "case", i, "is no", wanted)
    long = record(7, bytes(65533)) * 60 + good
    check(table_is(long, "a long table") == 0, "a long table is refused")
    return "%d tables" % (count - before)


def random_tables():
    """Records put together at random, with some bytes changed."""
    rng = random.Random(5)
    numbers = []
    for n in range(400):
        table = bytearray()
        for _ in range(rng.choice((1, 2, 3, 5, 70))):
            row = [rng.choice([2 ** rng.randrange(17)] * 80 + [rng.getrandbits(32)]) for _ in range(4)]
            table += rng.choice([row_record(row)] * 6 + [record(rng.choice((0, 2, 257)), bytes(rng.randrange(40)))])
        for _ in range(rng.choice((0, 0, 1, 3))):
            table[rng.randrange(len(table))] = rng.choice((0, 1, 2, 16, 18, 255))
        numbers.append(table_is(bytes(table), "random table %d" % n))
    check(all(numbers.count(number) > 30 for number in (0, 211, 212)), "of random tables too few are", numbers)


def made_again(rng):
    """A table of random rows, which is made of its text, and shown as text that makes it again."""
    rows = [[2 ** rng.randrange(17) for _ in range(4)] for _ in range(rng.choice((1, 2, 10, 64)))]
    typed = "\n".join(",".join(rng.choice(("%d", "0x%x", " %d", "%d\t")) % align for align in row) for row in rows)
    made = pitchcase("table", "make", "-", "-", text=typed.encode()).stdout
    check(made == table_of(rows), "of", typed, "is made", made)
    shown = pitchcase("table", "show", "-", text=made).stdout
    check(pitchcase("table", "make", "-", "-", text=shown).stdout == made, "of", shown, "is made another table")
    return rows, made


def edits_by_tables():
    """Edits with rows of random tables: alignments as asked, requests aligned so, and no other byte changed."""
    rng = random.Random(31)
    requests = 0
    for n in range(60):
        rows, table = made_again(rng)
        write("some.table", table)
        number = rng.randrange(len(rows))
        size = rng.choice((70000, 200000, 262144))
        plain = bytearray(random_bytes(rng, size))
        write("image", bytes(plain))
        align = dict(zip("MRZD", rows[number]))
        at, length = rng.randrange(size - 1000), rng.choice((1, 10, 700))
        new = random_bytes(rng, length)
        options = ("--table", "some.table", "--drive", rng.choice((number, hex(number))), "--json", "--trace")
        command, changed = rng.choice(((("edit", "image", at, "--hex", new.hex()), new), (("zero", "image", at, length), bytes(length))))
        by_numbers = pitchcase(*command, "--align", "%d,%d,%d,%d" % tuple(rows[number]), "--json", "--trace", "--plan").stdout
        check(pitchcase(*command, *options, "--plan").stdout == by_numbers, "run", n, "a plan by a row is another than by its alignments")
        events = [json.loads(line) for line in pitchcase(*command, *options).stdout.splitlines()]
        check(events[0]["align"] == rows[number], "run", n, "row", number, "of", rows, "is", events[0])
        for request in (event for event in events if event["event"] == "request"):
            unit = align[{"zero": "Z", "alloc": "Z", "discard": "D"}.get(request["kind"], "R")]
            check(request["offset"] % unit == 0 and request["length"] % unit == 0, "run", n, "asked for", align, "and made", request)
            requests += 1
        plain[at:at + length] = changed
        check(read("image") == plain, "run", n, "with", rows[number], "left other bytes")
        ran = pitchcase(*command, "--table", "some.table", "--drive", len(rows), status=2)
        check(b" 0 to %d (201)\n" % (len(rows) - 1) in ran.stderr and read("image") == plain, ran.stderr)
    check(requests > 200, "only", requests, "requests")
    return "%d requests" % requests


class Folder:
    """An empty folder, and what is in it."""

    def __init__(self):
        shutil.rmtree("tables", ignore_errors=True)
        os.mkdir("tables")

    def has(self, *names):
        found = sorted(os.listdir("tables"))
        check(found == sorted(names), "the folder has", found, "instead of", names)


def tables_that_fail():
    """Where standard output or the drive fails nothing is made, an old table stays, and nothing is left."""
    folder = Folder()
    write("rows", b"1,4096,4096,4096\n")
    write("some.table", table_of(FLEET))
    make = ("table", "make", "rows", "tables/t")
    reader, writer = os.pipe()
    os.close(reader)
    with open("/dev/full", "wb") as full:
        for output, why in ((full, b"no space left on device (28); "), (writer, b"broken pipe (32); ")):
            for words in (make, ("table", "show", "some.table"), ("table", "make", "rows", "-")):
                ran = pitchcase(*words, status=1, stdout=output)
                check(why in ran.stderr and ran.stderr.count(b"\n") == 1, words, ran.stderr)
                folder.has()
    os.close(writer)
    for closed in itertools.chain.from_iterable(itertools.combinations((0, 1, 2), n) for n in range(4)):
        pitchcase(*make, status=1 if 1 in closed else 0, preexec_fn=lambda: [os.close(d) for d in closed])
        folder.has(*([] if 1 in closed else ["t"]))
        if 1 not in closed:
            check(read("tables/t") == table_of([(1, 4096, 4096, 4096)]), "with", closed, "closed another table is made")
            os.unlink("tables/t")
    for words in (("table", "show", "-"), ("table", "make", "-", "tables/t")):
        ran = pitchcase(*words, status=2, preexec_fn=lambda: os.close(0))
        check(b"standard input is closed" in ran.stderr, ran.stderr)
    folder.has()
    for old in (False, True):
        if old:
            write("tables/t", b"old")
        more = ("--replace",) if old else ()
        ran = pitchcase(*make, *more, status=1, preexec_fn=lambda: resource.setrlimit(resource.RLIMIT_FSIZE, (5, 5)))
        check(b"TABLE tables/t: file too large (27); nothing was made\n" in ran.stderr, ran.stderr)
        folder.has(*(["t"] if old else []))
        if FAULTS:
            ran = pitchcase(*make, *more, status=1, faults={"FAULT_FSYNC": "1,5"})
            check(b"TABLE tables/t: input/output error (5); nothing was made\n" in ran.stderr, ran.stderr)
            folder.has(*(["t"] if old else []))
            ran = pitchcase(*make, *more, status=1, faults={"FAULT_RENAME": "1,30"})
            check(b"TABLE tables/t: read-only file system (30); nothing was made\n" in ran.stderr, ran.stderr)
            folder.has(*(["t"] if old else []))
    check(read("tables/t") == b"old", "a make that failed changed the old table")


def tables_and_names():
    """A file system that cannot rename without replacing; a folder that cannot be synced."""
    folder = Folder()
    write("rows", b"1,4096,4096,4096\n")
    make = ("table", "make", "rows", "tables/t")
    for errno_of in (errno.EINVAL, errno.ENOSYS):
        pitchcase(*make, faults={"FAULT_RENAME": "1,%d" % errno_of})
        check(read("tables/t") == table_of([(1, 4096, 4096, 4096)]), "by a second name another table is made")
        write("tables/t", b"old")
        pitchcase(*make, status=2, faults={"FAULT_RENAME": "1,%d" % errno_of})
        folder.has("t")
        check(read("tables/t") == b"old", "by a second name the old table is replaced")
        os.unlink("tables/t")
    ran = pitchcase(*make, status=1, faults={"FAULT_FSYNC": "2,5"})
    check(b"TABLE tables/t: fsync of its folder: input/output error (5); it was made\n" in ran.stderr, ran.stderr)
    folder.has("t")


def tables_at_once():
    """Of many that make one table one does, the others are refused; who reads while it is replaced sees a whole one."""
    folder = Folder()
    texts = {}
    for i in range(8):
        rows = [(1, 2 ** i, 2 ** i, 2 ** i)] * (8 * i + 8)
        write("rows%d" % i, b"".join(b"%d,%d,%d,%d\n" % row for row in rows))
        texts[i] = table_of(rows)
    for n in range(8):
        # Every other time a file system that cannot rename without replacing.
        environment = dict(os.environ, **({"LD_PRELOAD": FAULTS, "FAULT_RENAME": "1,22"} if FAULTS and n % 2 else {}))
        makers = [subprocess.Popen([PROGRAM, "table", "make", "rows%d" % i, "tables/t"], stdout=subprocess.DEVNULL,
                                   stderr=subprocess.PIPE, env=environment) for i in range(8)]
        said = [maker.communicate()[1] for maker in makers]
        made = [i for i, maker in enumerate(makers) if maker.returncode == 0]
        check(len(made) == 1 and read("tables/t") == texts[made[0]], made, "have made a table that is", read("tables/t")[:40])
        for i, maker in enumerate(makers):
            check(i in made or maker.returncode == 2 and b"is there already; --replace" in said[i], maker.returncode, said[i])
        folder.has("t")
        os.unlink("tables/t")
    write("tables/t", texts[0])
    for _ in range(6):
        makers = [subprocess.Popen([PROGRAM, "table", "make", "rows%d" % i, "tables/t", "--replace"], stdout=subprocess.DEVNULL)
                  for i in range(8)]
        while any(maker.poll() is None for maker in makers):
            check(read("tables/t") in texts.values(), "a table that is being replaced is not whole")
        check(all(maker.returncode == 0 for maker in makers), "of those who replace one has failed")
        folder.has("t")


def is_waiting(process):
    """Whether it waits in a call of the system's."""
    with open("/proc/%d/stat" % process.pid) as f:
        return f.read().rsplit(")", 1)[1].split()[0] == "S"


def full_pipe():
    """Both ends of a pipe that takes no more."""
    reader, writer = os.pipe()
    os.set_blocking(writer, False)
    try:
        while os.write(writer, bytes(4096)):
            pass
    except BlockingIOError:
        os.set_blocking(writer, True)
    return reader, writer


def tables_interrupted():
    """A make that is asked to end while it waits, for its text or for its reader, makes nothing; what a killed one left
    is in nobody's way."""
    folder = Folder()
    for sign in SIGNALS:
        process = started("table", "make", "-", "tables/t", stdin=subprocess.PIPE, stderr=subprocess.PIPE)
        process.stdin.write(b"1,1,1,1\n")
        process.stdin.flush()
        # It reads in its main thread: the signal comes while it waits in that call.
        wait_until(lambda: is_waiting(process), "it does not wait")
        process.send_signal(sign)
        said = process.stderr.read()
        check(process.wait() == 130 and said == b"pitchcase: interrupted: nothing was begun\n", process.returncode, said)
        process.stdin.close()
        folder.has()
    write("rows", b"1,1,1,1\n")
    for sign in SIGNALS:
        reader, writer = full_pipe()
        process = started("table", "make", "rows", "tables/t", stdout=writer, stderr=subprocess.PIPE)
        os.close(writer)
        wait_until(lambda: len(os.listdir("tables")) == 1 and is_waiting(process), "it does not wait")
        process.send_signal(sign)
        while os.read(reader, 65536):
            pass
        os.close(reader)
        said = process.stderr.read()
        check(process.wait() == 130 and said == b"pitchcase: interrupted: nothing was made\n", process.returncode, said)
        folder.has()
    left = [".pitchcase-%d-0.new" % pid for pid in range(os.getpid(), os.getpid() + 3000)]
    for name in left:
        write("tables/" + name, b"left")
    pitchcase("table", "make", "rows", "tables/t")
    folder.has("t", *left)
    check(all(read("tables/" + name) == b"left" for name in left), "a file that an earlier run left has changed")


def become_nobody():
    os.setgroups([])
    os.setgid(65534)
    os.setuid(65534)


def by_user(*words, status=0):
    """Runs a copy of it, in the folder of tables, by a user who is not root; its standard error."""
    ran = subprocess.run([os.path.abspath("tables/pitchcase"), *words], stdout=subprocess.PIPE, stderr=subprocess.PIPE,
                         cwd="tables", preexec_fn=become_nobody if os.geteuid() == 0 else None)
    check(ran.returncode == status, words, "ended with", ran.returncode, ran.stderr)
    return ran.stderr


def tables_of_others():
    """Permissions, by a user who is not root: nothing is made, and none replaced, where he may not write."""
    Folder()
    write("tables/rows", b"1,1,1,1\n")
    shutil.copy(PROGRAM, "tables/pitchcase")
    before = os.stat(".").st_mode
    os.chmod(".", 0o755)
    os.chmod("tables", 0o777)
    try:
        by_user("table", "make", "rows", "t")
        os.chmod("tables/t", 0o444)
        said = by_user("table", "make", "rows", "t", "--replace", status=2)
        check(said == b"pitchcase: refused: TABLE t: permission denied (13)\n", said)
        os.chmod("tables/t", 0o000)
        for words in (("table", "show", "t"), ("table", "make", "t", "u"), ("info", "rows", "--table", "t")):
            check(b" t: permission denied (13)\n" in by_user(*words, status=2), words)
        os.chmod("tables/t", 0o604)
        by_user("table", "make", "rows", "t", "--replace")
        check(os.stat("tables/t").st_mode & 0o777 == 0o604, "a table that was replaced has other permissions")
        os.chmod("tables", 0o555)
        said = by_user("table", "make", "rows", "new", status=2)
        check(said == b"pitchcase: refused: TABLE new: its folder: permission denied (13)\n", said)
    except (PermissionError, subprocess.SubprocessError):
        return "another user cannot be had here: left out"
    finally:
        os.chmod("tables", 0o777)
        os.chmod(".", before)
    return None


def tables_from_pipes():
    """A table that comes through a pipe, a byte at a time, and one that has no end."""
    os.mkfifo("table.pipe")
    process = subprocess.Popen([PROGRAM, "table", "show", "table.pipe"], stdout=subprocess.PIPE)
    with open("table.pipe", "wb", buffering=0) as pipe:
        for byte in mixed_table():
            pipe.write(bytes([byte]))
    shown = process.communicate()[0]
    check(process.returncode == 0 and shown == pitchcase("table", "show", "-", text=mixed_table()).stdout, shown)
    os.unlink("table.pipe")
    if FAULTS:
        write("image", IMAGE)
        write("some.table", mixed_table())
        faults = {"FAULT_SHORT": "1", "FAULT_EINTR": "1"}
        pitchcase("edit", "image", 600, "--hex", "ffff", "--table", "some.table", "--drive", 0, faults=faults)
        check(read("image") == edited("edit")[0], "short transfers with a table")


# --- Devices ---


class Loop:
    """A loop device over a file; None where the machine has none."""

    def __init__(self, path, block):
        self.device = None
        if os.geteuid() != 0:
            return
        try:
            ran = subprocess.run(["losetup", "-f", "--show", "-b", str(block), path], stdout=subprocess.PIPE, stderr=subprocess.DEVNULL)
        except FileNotFoundError:
            return
        if ran.returncode == 0:
            self.device = ran.stdout.decode().strip()

    def __enter__(self):
        return self.device

    def __exit__(self, *_):
        if self.device:
            subprocess.run(["losetup", "-d", self.device], check=True)


def devices():
    """Loop devices with blocks of 512 and 4096."""
    rng = random.Random(11)
    for block in (512, 4096):
        plain = bytearray(random_bytes(rng, 1 << 20))
        write("backing", bytes(plain))
        with Loop("backing", block) as device:
            if device is None:
                return "no loop device can be had here: left out"
            one_device(rng, device, block, plain)
    return "blocks of 512 and 4096"


def one_device(rng, device, block, plain):
    told = json.loads(pitchcase("info", device, "--json").stdout)
    check(told["kind"] == "block device" and told["size"] == len(plain) and told["align"][:3] == [1, block, block], told)
    for options in ((), ("--direct",), ("--direct", "--out", 1), ("--order", "round"), ("--drive", 3)):
        for _ in range(6):
            at = rng.randrange(len(plain) - 20000)
            new = random_bytes(rng, rng.choice((1, 10, 512, 4096, 20000)))
            pitchcase("edit", device, at, "--hex", new.hex(), *options)
            plain[at:at + len(new)] = new
            length = rng.randrange(20000)
            at = rng.randrange(len(plain) - length)
            pitchcase("zero", device, at, length, *options, *rng.choice(((), ("--alloc",))))
            plain[at:at + length] = bytes(length)
            save_sheet(rng, device, plain, *options)
            check(pitchcase("look", device, 0, len(plain), "--raw", *options).stdout == plain, device, options, "has other bytes")
    pitchcase("edit", device, len(plain) - 1, "--hex", "5a", "--direct")
    plain[-1] = 0x5A
    for words in (("edit", device, len(plain), "--hex", "aa"), ("edit", device, len(plain), "--hex", "aa", "--grow"),
                  ("edit", device, 0, "--hex", "aa", "--direct", "--drive", 0), ("zero", device, 0, 100, "--drive", 0)):
        pitchcase(*words, status=2)
    pitchcase("edit", device, 7, "--hex", "5b", "--drive", 0)
    plain[7] = 0x5B
    held = os.open(device, os.O_RDWR | os.O_EXCL)
    ran = pitchcase("edit", device, 0, "--hex", "aa", status=2)
    check(b"mounted, or another holds it" in ran.stderr, ran.stderr)
    os.close(held)
    check(pitchcase("look", device, 0, len(plain), "--raw").stdout == plain, device, "has other bytes")
    ran = pitchcase("discard", device, 0, len(plain), "--trace")
    check(b"discard 0+%d (0x0): " % len(plain) in ran.stdout, ran.stdout)
    edge = len(plain) // 2
    os.truncate("backing", edge)
    ran = pitchcase("look", device, edge - 8192, 16384, "--direct", status=(0, 1))
    check(ran.returncode == 0 or b"input/output error (5)" in ran.stderr, ran.stderr)


# --- What is printed ---


def json_lines():
    """Each line is an object with the fields that the man page names."""
    fields = {
        "start": {"command", "image", "kind", "size", "align", "share", "out", "jobs", "plan"}, "show": {"when"},
        "request": {"kind", "offset", "length", "code", "waiting"}, "bytes": {"verb", "offset", "length", "hex"},
        "job": {"verb", "offset", "length", "code", "requests", "bytes_read", "bytes_written"},
        "range": {"range", "verb", "offset", "length", "lines"},
        "lines": {"done", "failed", "partly", "not_begun"}, "end": {"status", "jobs", "requests", "bytes_read", "bytes_written"},
    }
    write("script", b"write 600 ffff\nread 0 64\nzero 512 512\nbarrier\nread 600 2\n")
    seen = set()
    for words in (CHANGES["edit"], CHANGES["zero"], CHANGES["sheet"], CHANGES["sheet"] + ("--plan",), CHANGES["fleet"],
                  CHANGES["look"], CHANGES["fleet"] + ("--plan",)):
        write("image", IMAGE)
        write("sheet", b"write 601 ff\nwrite 600 ff\nwrite 700 00\n")
        events = [json.loads(line) for line in pitchcase(*words, "--json", "--trace").stdout.splitlines()]
        check(events[0]["event"] == "start" and events[-1]["event"] == "end" and events[-1]["status"] == 0, words, events)
        for event in events:
            seen.add(event["event"])
            check(fields[event["event"]] | {"event"} <= set(event) | {"line"}, words, event)
        check(events[-1]["requests"] == sum(e["requests"] for e in events if e["event"] == "job") - sum(
            1 for e in events if e["event"] == "job" and words[0] == "edit" and e["verb"] == "read"), words, "requests do not add up")
    last = [e for e in events if e["event"] == "bytes"]
    check(not last, "a plan shows bytes")
    write("image", IMAGE)
    events = [json.loads(line) for line in pitchcase(*CHANGES["fleet"], "--json").stdout.splitlines()]
    check([e["hex"] for e in events if e["event"] == "bytes" and e["line"] == 5] in (["ffff"], ["0000"]), events)
    check(seen == set(fields) - {"lines"}, "events seen:", seen)
    if FAULTS:
        write("script", b"write 600 ffff\nbarrier\nwrite 100 ff\nbarrier\nread 0 1\n")
        ran = pitchcase(*CHANGES["fleet"], "--json", status=1, faults={"FAULT_WRITE": "2,5"})
        events = {e["event"]: e for e in map(json.loads, ran.stdout.splitlines())}
        wanted = {"event": "lines", "done": [[1, 1]], "failed": [[3, 3]], "partly": [], "not_begun": [[5, 5]]}
        check(events["lines"] == wanted and events["end"]["status"] == 1, events)
        check(events["job"]["code"] == 5 and events["job"]["reason"] == "input/output error (5)", events["job"])


def progress():
    """A line now and then where standard error is no terminal; a bar with a percentage where it is one."""
    size = 64 << 20
    with open("long", "wb") as f:
        f.truncate(size)
    words = ("zero", "long", 0, size, "--alloc", "--share", "4K")
    faults = {"FAULT_FALLOCATE": "0,95", "FAULT_DELAY_US": "120"}
    ran = pitchcase(*words, faults=faults)
    check(b"%), " in ran.stderr and b" MiB/s\n" in ran.stderr and b" of %d bytes (" % size in ran.stderr, ran.stderr)
    master, slave = pty.openpty()
    process = subprocess.Popen([PROGRAM, *map(str, words)], stdout=subprocess.DEVNULL, stderr=slave,
                               env=dict(os.environ, LD_PRELOAD=FAULTS, TERM="xterm", **faults))
    os.close(slave)
    shown = b""
    while True:
        try:
            part = os.read(master, 4096)
        except OSError:
            break
        if not part:
            break
        shown += part
    os.close(master)
    check(process.wait() == 0 and b"% " in shown and b"/s" in shown, "a bar:", shown[:300])
    os.unlink("long")


# Name, test, whether it needs faults.
TESTS = (
    ("closed descriptors", closed_descriptors, False),
    ("a full or broken standard output", full_output, False),
    ("a reader who goes away", output_that_ends, False),
    ("two processes on one image", two_processes, False),
    ("locks", locks, True),
    ("qemu's lock", peers_lock, False),
    ("names and texts of any bytes", odd_words, False),
    ("kill -9 in the middle of a fleet", killed, False),
    ("interrupted fleets", interrupted, True),
    ("interrupted twice", interrupted_twice, True),
    ("signals that are ignored", ignored, True),
    ("an interrupted zeroing", long_zeroing, True),
    ("short and interrupted transfers", short_and_interrupted, True),
    ("failing requests", failures, True),
    ("a long edit that fails", long_edit_that_fails, True),
    ("a fleet that fails", fleet_that_fails, True),
    ("requests out together", out_together, True),
    ("a full disk", full_disk, False),
    ("images of 0, 1 and 2^32 + 1 bytes", sizes, False),
    ("random fleets", random_fleets, False),
    ("random sheets", random_sheets, False),
    ("sheets of 63 to 200 lines", sheets_of_65, False),
    ("sheets that fail", sheets_that_fail, True),
    ("interrupted sheets", sheets_interrupted, True),
    ("sheets longer than the share", long_sheets, False),
    ("long sheets that stop", long_sheets_that_stop, True),
    ("sheets from a pipe", sheets_from_pipes, False),
    ("a sheet whose reader goes away", sheet_reader_that_ends, True),
    ("drive tables, cut and changed", tables_cut_and_changed, False),
    ("random drive tables", random_tables, False),
    ("edits by rows of a table", edits_by_tables, False),
    ("tables that cannot be made", tables_that_fail, False),
    ("names of tables", tables_and_names, True),
    ("tables made at once", tables_at_once, False),
    ("interrupted tables", tables_interrupted, False),
    ("tables of others", tables_of_others, False),
    ("tables from a pipe", tables_from_pipes, False),
    ("--direct", direct_files, False),
    ("loop devices", devices, False),
    ("JSON", json_lines, False),
    ("progress", progress, True),
)


def heed_signals():
    """Programs started from here ignore none of them, however the tests were started themselves."""
    for sign in SIGNALS:
        if signal.getsignal(sign) == signal.SIG_IGN:
            signal.signal(sign, signal.SIG_DFL)


def main():
    heed_signals()
    for name, test, needs_faults in TESTS:
        if needs_faults and not FAULTS:
            continue
        start = time.monotonic()
        try:
            said = test()
        except Wrong as wrong:
            print("tests/pitchcase: FAILED: %s: %s" % (name, wrong))
            return 1
        print("tests/pitchcase: %s%s (%.1f s)" % (name, ": " + said if said else "", time.monotonic() - start), flush=True)
    print("tests/pitchcase: %d more runs as expected" % count)
    return 0


sys.exit(main())
