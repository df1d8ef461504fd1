#!/usr/bin/env bash
# Sets `show` beside the real loader by time, for the three programs of the machine of which the loader prints the most
# bindings, and for gdb, inkscape, keepassxc and mpv where they are installed: the bindings that the loader prints, the
# references that `show` reports, the seconds of each (the best of seven, the output to a file), their ratio, and the peak
# memory of `show` beside three times its report's length plus the largest file. The aim is at most 2 for the time and at
# most 1 for the memory. The loader runs no code of the program for this. It needs the built program
# (crates/appdir/out/appdir) and python3. Programs may be given in place of those that are looked for.
set -u
cd "$(dirname "$0")/.." || exit 1
exec python3 - "$PWD/crates/appdir/out/appdir" "$@" <<'PY'
import os, shutil, struct, subprocess, sys, tempfile, time

appdir, given = sys.argv[1], sys.argv[2:]
TRIES = 7
LARGEST = 3
KNOWN = ("gdb", "inkscape", "keepassxc", "mpv")
TRACE = {"LD_TRACE_LOADED_OBJECTS": "1", "LD_WARN": "yes", "LD_BIND_NOW": "1", "LD_DEBUG": "bindings"}
PT_INTERP = 3


def has_interpreter(path):
    """Whether it is a program that the loader starts: another one would run under the trace."""
    try:
        with open(path, "rb") as it:
            head = it.read(64)
            if len(head) < 64 or head[:6] != b"\x7fELF\x02\x01":
                return False
            at, size, count = struct.unpack_from("<Q", head, 32)[0], *struct.unpack_from("<HH", head, 54)
            it.seek(at)
            table = it.read(size * count)
    except OSError:
        return False
    return any(struct.unpack_from("<I", table, k)[0] == PT_INTERP for k in range(0, len(table) - 3, max(size, 1)))


def programs():
    """The programs of the machine by their real paths."""
    found = set()
    for top in ("/usr/bin", "/usr/sbin", "/usr/libexec", "/usr/local/bin", "/opt"):
        for folder, _, names in os.walk(top):
            for name in names:
                path = os.path.realpath(os.path.join(folder, name))
                if path not in found and os.access(path, os.X_OK) and has_interpreter(path):
                    found.add(path)
    return found


def timed(words, env, out):
    """Seconds and peak memory in bytes, with what is printed in the file `out`."""
    with open(out, "wb") as to:
        begun = time.monotonic()
        child = subprocess.Popen(words, stdout=to, stderr=to, env=env)
        _, status, usage = os.wait4(child.pid, 0)
        child.returncode = status
        return time.monotonic() - begun, usage.ru_maxrss * 1024


def count_lines(path, mark):
    with open(path, "rb") as it:
        return sum(mark in line for line in it)


def bindings(path, out):
    timed([path], TRACE, out)
    return count_lines(out, b"binding file ")


def largest_file(report):
    """The length of the largest file that the report says was loaded."""
    lengths = [0]
    with open(report, "rb") as it:
        for line in it:
            words = line.split(b" ")
            if words[0] == b"load" and os.path.exists(words[2]):
                lengths.append(os.path.getsize(words[2]))
    return max(lengths)


def measure(room, path):
    report, trace = os.path.join(room, "report"), os.path.join(room, "trace")
    peak, show, loader = 0, [], []
    for _ in range(TRIES):
        seconds, memory = timed([appdir, "show", path], {}, report)
        show.append(seconds)
        peak = max(peak, memory)
        loader.append(timed([path], TRACE, trace)[0])
    length, references = os.path.getsize(report), count_lines(report, b"bind ")
    if references == 0:
        print(f"{path}: {open(report, 'rb').read(200).decode(errors='replace').strip()}")
        return
    bound = 3 * length + largest_file(report)
    print(f"{path}: {count_lines(trace, b'binding file ')} bindings by the loader, {references} by show")
    print(f"  show {min(show):.3f} s, loader {min(loader):.3f} s: time ratio {min(show) / min(loader):.2f}")
    print(f"  peak memory {peak} bytes, three reports and the largest file {bound}: memory ratio {peak / bound:.2f}")


with tempfile.TemporaryDirectory() as room:
    chosen = given
    if not chosen:
        counts = sorted(((bindings(it, os.path.join(room, "trace")), it) for it in programs()), reverse=True)
        chosen = [path for _, path in counts[:LARGEST]]
        for name in KNOWN:
            path = shutil.which(name)
            if path and os.path.realpath(path) not in chosen:
                chosen.append(os.path.realpath(path))
    for path in chosen:
        measure(room, path)
PY
