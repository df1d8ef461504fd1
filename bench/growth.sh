#!/usr/bin/env bash
# Shows how time and memory grow: of `gen N` for 125, 250, 500 and 1,000 libraries, and of `show` and `quick` on made
# closures of 16, 64, 256 and 1,000 libraries with 1,000 symbols each, of which a tenth is defined in another library. Each
# line has processor seconds (the best of three), peak memory, and both divided by n log n of what grows: the libraries of `gen`, the
# references that `show` reports, and besides by the bytes of all files. Where a column of quotients rises from line to
# line, the growth is worse than n log n. It needs the built program (crates/appdir/out/appdir), or words that run it, and
# python3.
set -u
cd "$(dirname "$0")/.." || exit 1
[ $# -gt 0 ] || set -- "$PWD/crates/appdir/out/appdir"
exec python3 - "$@" <<'PY'
import math, os, shutil, struct, subprocess, sys, tempfile, time

TREES, CLOSURES, SYMBOLS, TRIES, LIMIT = (125, 250, 500, 1000), (16, 64, 256, 1000), 1000, 3, 300
INTERPRETER = b"/lib64/ld-linux-x86-64.so.2\0"


def sysv_hash(name):
    h = 0
    for c in name:
        h = ((h << 4) + c) & 0xFFFFFFFF
        g = h & 0xF0000000
        h = (h ^ (g >> 24)) & ~g & 0xFFFFFFFF
    return h


def hash_table(names):
    """As many buckets as symbols, each with the chain of its symbols."""
    count = len(names) + 1
    buckets, chains = [0] * count, [0] * count
    for i, name in enumerate(names, 1):
        bucket = sysv_hash(name) % count
        chains[i], buckets[bucket] = buckets[bucket], i
    return struct.pack("<%dI" % (2 + 2 * count), count, count, *buckets, *chains)


def made_object(interp, soname, needs, runpath, wanted, defined):
    """An object with one loaded segment, in which each place is its address."""
    strings, places = bytearray(b"\0"), {}

    def text(it):
        if it not in places:
            places[it] = len(strings)
            strings.extend(it + b"\0")
        return places[it]

    named = [(1, text(it)) for it in needs] + [(14, text(soname))] * bool(soname) + [(29, text(runpath))]
    symbols = bytearray(24)
    for names, section in ((wanted, 0), (defined, 1)):
        for name in names:
            symbols += struct.pack("<IBBHQQ", text(name), 0x12, 0, section, 16 if section else 0, 0)
    parts, at = {}, 64 + 56 * (3 if interp else 2)
    for what, part in (("interp", interp), ("strings", bytes(strings)), ("symbols", bytes(symbols)),
                       ("hash", hash_table(wanted + defined))):
        at = (at + 7) // 8 * 8
        parts[what] = (at, part)
        at += len(part)
    at = (at + 7) // 8 * 8
    entries = named + [(4, parts["hash"][0]), (5, parts["strings"][0]), (6, parts["symbols"][0]), (10, len(strings)),
                       (11, 24), (0, 0)]
    dynamic = b"".join(struct.pack("<QQ", *entry) for entry in entries)
    segments = [(3, 4, parts["interp"][0], len(interp), 1)] if interp else []
    segments += [(1, 6, 0, at + len(dynamic), 4096), (2, 6, at, len(dynamic), 8)]
    head = b"\x7fELF\2\1\1" + bytes(9)
    head += struct.pack("<HHIQQQIHHHHHH", 3, 62, 1, 64, 64, 0, 0, 64, 56, len(segments), 0, 0, 0)
    for kind, flags, place, length, align in segments:
        head += struct.pack("<IIQQQQQQ", kind, flags, place, place, place, length, length, align)
    file = bytearray(at + len(dynamic))
    for place, part in [(0, head), (at, dynamic), *parts.values()]:
        file[place:place + len(part)] = part
    return bytes(file)


def closure(room, count):
    """A program and so many libraries, each of which needs two others and asks one more for a tenth of its symbols."""
    os.mkdir(os.path.join(room, "lib"))
    size = 0
    for i in range(count + 1):
        asked = (7 * i) % count + 1
        wanted = [b"function_%d_of_library_%d" % (k, asked) for k in range(SYMBOLS // 10)]
        defined = [b"function_%d_of_library_%d" % (k, i) for k in range(SYMBOLS - SYMBOLS // 10)]
        needs = [b"libmade%d.so" % k for k in ((1,) if i == 0 else (2 * i, 2 * i + 1)) if k <= count]
        soname = b"libmade%d.so" % i if i else b""
        file = made_object(b"" if i else INTERPRETER, soname, needs, b"$ORIGIN" if i else b"$ORIGIN/lib", wanted, defined)
        size += len(file)
        with open(os.path.join(room, "lib/libmade%d.so" % i if i else "program"), "wb") as it:
            it.write(file)
    return size


def timed(words, out):
    """Processor seconds and peak memory in MB; None where it does not end in time."""
    with open(out, "wb") as to:
        begun = time.monotonic()
        child = subprocess.Popen(sys.argv[1:] + words, stdout=to, stderr=to)
        while True:
            ended, status, usage = os.wait4(child.pid, os.WNOHANG)
            if ended:
                break
            if time.monotonic() - begun > LIMIT:
                child.kill()
            time.sleep(0.002)
        child.returncode = status
    if status != 0:
        print(f"{' '.join(words)}: status {status}, {open(out, 'rb').read(200).decode(errors='replace').strip()}")
        return None
    return usage.ru_utime + usage.ru_stime, usage.ru_maxrss * 1024 / 1e6


def best(words, out, before=lambda: None):
    """The least of several tries; one of those that take long."""
    tries = []
    for _ in range(TRIES):
        before()
        one = timed(words, out)
        if one is None:
            return None
        tries.append(one)
        if one[0] > 20:
            break
    return min(it[0] for it in tries), max(it[1] for it in tries)


def said(what, n, took, size=None):
    if took is None:
        return
    seconds, memory = took
    unit = n * math.log2(n)
    more = f", {seconds / size * 1e9:.2f} ns a byte" if size else ""
    print(f"{what}: {seconds:.3f} s, {memory:.0f} MB; by n log n {seconds / unit * 1e6:.2f} us, {memory / unit * 1e3:.2f} kB"
          f"{more}", flush=True)


with tempfile.TemporaryDirectory() as top:
    out = os.path.join(top, "said")
    for count in TREES:
        said(f"gen {count}", count, best(["gen", str(count)], out))
    for count in CLOSURES:
        room, packed = os.path.join(top, str(count)), os.path.join(top, "packed")
        os.mkdir(room)
        size = closure(room, count)
        program = os.path.join(room, "program")
        shown = best(["show", program], out)
        with open(out, "rb") as it:
            references = sum(line.startswith(b"bind ") for line in it)
        print(f"{count} libraries: {size / 1e6:.1f} MB, {references} references", flush=True)
        said("  show", max(references, 2), shown, size)
        clean = lambda: shutil.rmtree(packed, ignore_errors=True)
        said("  quick", max(references, 2), best(["quick", program, packed], out, clean), size)
        clean()
        shutil.rmtree(room)
PY
