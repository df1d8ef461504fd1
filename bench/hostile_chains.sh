#!/usr/bin/env bash
# Runs `quick` on two made programs of 20,000 symbols whose hash table has 20,000 buckets, and prints its seconds on each.
# In the first, all buckets begin one chain of all symbols, and each symbol has to be found in it; in the second, each
# bucket begins the chain of the one before it with one symbol more. A check that follows each chain from its bucket takes
# minutes on either. It needs the built program (crates/appdir/out/appdir), or words that run it, and python3.
set -u
cd "$(dirname "$0")/.." || exit 1
[ $# -gt 0 ] || set -- "$PWD/crates/appdir/out/appdir"
exec python3 - "$@" <<'PY'
import os, shutil, struct, subprocess, sys, tempfile, time

COUNT, LIMIT = 20_000, 5


def program(buckets, chains, section):
    """A program without needs: its symbols are defined in this section, or nowhere where that is 0."""
    interpreter = b"/lib64/ld-linux-x86-64.so.2\0"
    names, strings = [], b"\0"
    for i in range(COUNT):
        names.append(len(strings))
        strings += b"s%d\0" % i
    symbols = bytes(24) + b"".join(struct.pack("<IBBHQQ", name, 0x12, 0, section, 16 if section else 0, 0) for name in names)
    words = [len(buckets), len(chains)] + buckets + chains
    places, size = [], 64 + 56 * 3
    for part in (interpreter, strings, symbols, struct.pack("<%dI" % len(words), *words)):
        size = (size + 7) // 8 * 8
        places.append((size, part))
        size += len(part)
    size = (size + 7) // 8 * 8
    entries = [(4, places[3][0]), (5, places[1][0]), (6, places[2][0]), (10, len(strings)), (11, 24), (0, 0)]
    dynamic = b"".join(struct.pack("<QQ", *entry) for entry in entries)
    end = size + len(dynamic)
    segments = [(3, 4, places[0][0], len(interpreter), 1), (1, 6, 0, end, 4096), (2, 6, size, len(dynamic), 8)]
    head = b"\x7fELF\2\1\1" + bytes(9)
    head += struct.pack("<HHIQQQIHHHHHH", 3, 62, 1, 64, 64, 0, 0, 64, 56, len(segments), 0, 0, 0)
    for kind, flags, at, length, align in segments:
        head += struct.pack("<IIQQQQQQ", kind, flags, at, at, at, length, length, align)
    file = bytearray(end)
    for at, part in [(0, head), (size, dynamic)] + places:
        file[at:at + len(part)] = part
    return bytes(file)


def seconds(room, file):
    path, out = os.path.join(room, "program"), os.path.join(room, "out")
    with open(path, "wb") as it:
        it.write(file)
    shutil.rmtree(out, ignore_errors=True)
    begun = time.monotonic()
    done = subprocess.run(sys.argv[1:] + ["quick", path, out], capture_output=True, text=True)
    return time.monotonic() - begun, (done.stdout + done.stderr).strip(), done.returncode


def main():
    forward = [0] + list(range(2, COUNT + 1)) + [0]
    shapes = [
        ("one chain for all buckets", program([1] * COUNT, forward, 1)),
        ("each chain one symbol longer", program(list(range(COUNT, 0, -1)), forward, 0)),
    ]
    slow = False
    with tempfile.TemporaryDirectory() as room:
        for what, file in shapes:
            took, said, status = seconds(room, file)
            print(f"{what}: {took:.2f} s, status {status}, {said[:100]}")
            slow = slow or took > LIMIT or status != 0
    sys.exit(1 if slow else 0)


main()
PY
