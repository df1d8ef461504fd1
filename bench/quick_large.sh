#!/usr/bin/env bash
# Packs the largest program of the machine that can be packed, and prints three ratios: the time of `quick` to that of cp of
# the same file, and to that of cp with a sync of the copy, since `quick` ends when the system has its files on disk; and
# its peak memory to the file's length. The aim is at most 3 for the time with a sync and for the memory.
# It needs the built program (crates/appdir/out/appdir) and python3. Programs may be given; else those of the machine are
# tried from the largest on.
set -u
cd "$(dirname "$0")/.." || exit 1
exec python3 - "$PWD/crates/appdir/out/appdir" "$@" <<'PY'
import os, re, resource, shutil, subprocess, sys, tempfile, time

appdir, given = sys.argv[1], sys.argv[2:]
TRIES = 7


def programs():
    """Executable files from the largest on, 4 MB at least."""
    found = set()
    for top in ("/usr/bin", "/usr/sbin", "/usr/lib", "/usr/libexec", "/usr/local", "/opt"):
        for folder, _, names in os.walk(top):
            for name in names:
                path = os.path.join(folder, name)
                if os.path.isfile(path) and not os.path.islink(path) and os.access(path, os.X_OK):
                    size = os.path.getsize(path)
                    if 4_000_000 < size <= 536_870_912:
                        found.add((size, path))
    return [path for _, path in sorted(found, reverse=True)]


def names_of(path):
    """The libraries that the machine's own loader loads for the program."""
    said = subprocess.run(["ldd", path], capture_output=True, text=True).stdout
    names = [os.path.basename(it) for it in re.findall(r"^\t(\S+)", said, re.M)]
    return [it for it in names if not it.startswith("linux-vdso")]


def timed(words):
    """Seconds, peak memory in bytes, and what was printed."""
    begun = time.monotonic()
    child = subprocess.Popen(words, stdout=subprocess.PIPE, stderr=subprocess.DEVNULL)
    said = child.stdout.read().decode()
    _, status, usage = os.wait4(child.pid, 0)
    child.returncode = status
    return time.monotonic() - begun, usage.ru_maxrss * 1024, said


def made(room):
    """A program of 100 MB with many pages, where there is a compiler."""
    source, path = os.path.join(room, "large.c"), os.path.join(room, "large")
    with open(source, "w") as it:
        it.write('__asm__(".data\\n.globl pages\\npages:\\n.rept 25600\\n.quad 1\\n.zero 4088\\n.endr");\n'
                 "int main(void) { return 0; }\n")
    done = subprocess.run(["cc", "-o", path, source], stderr=subprocess.DEVNULL).returncode == 0
    return [path] if done else []


def measure(room, path):
    out, names = os.path.join(room, "out"), names_of(path)
    quick, cp, synced, peak = [], [], [], 0
    for _ in range(TRIES):
        shutil.rmtree(out, ignore_errors=True)
        seconds, memory, said = timed([appdir, "quick", path, out, *names])
        if not said.startswith("done:"):
            return said.strip()
        quick.append(seconds)
        peak = max(peak, memory)
        copy = os.path.join(room, "copy")
        cp.append(timed(["cp", path, copy])[0])
        os.remove(copy)
        synced.append(timed(["sh", "-c", 'cp "$1" "$2" && sync "$2"', "-", path, copy])[0])
        os.remove(copy)
    size = os.path.getsize(path)
    print(f"{path}: {size} bytes")
    print(f"quick {min(quick):.3f} s, cp {min(cp):.3f} s: time ratio {min(quick) / min(cp):.2f}")
    print(f"cp and sync {min(synced):.3f} s: time ratio {min(quick) / min(synced):.2f}")
    print(f"peak memory {peak} bytes: memory ratio {peak / size:.2f}")
    return None


with tempfile.TemporaryDirectory() as room:
    for path in given or programs() + made(room):
        refused = measure(room, path)
        if refused is None:
            sys.exit(0)
        if given:
            print(f"{path}: {refused}")
    print("no program of this machine can be packed")
    sys.exit(1)
PY
