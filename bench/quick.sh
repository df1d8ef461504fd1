#!/usr/bin/env bash
# Sets `quick` beside what it replaces, for programs that bundle libraries: lddtree, a copy of each file and three calls of
# patchelf a file; beside `cp -r` of the AppDir plus `show` of the program, all in one run and each the best of five. It
# prints seconds and ratios, and the peak memory of `quick` to the largest file and the rewritten ones with the texts. The
# aims: at most half of the first, at most 4 times `cp -r` plus `show`. It needs the built program
# (crates/appdir/out/appdir) and python3; patchelf and lddtree (Debian: patchelf, pax-utils with python3-pyelftools) where they are installed.
# Programs may be given in place of those that are tried.
set -u
cd "$(dirname "$0")/.." || exit 1
exec python3 - "$PWD/crates/appdir/out/appdir" "$@" <<'PY'
import os, re, shutil, subprocess, sys, tempfile, time

appdir, given = sys.argv[1], sys.argv[2:]
TRIES = 5
PROGRAMS = ("/usr/bin/git", "/usr/bin/perl", os.path.realpath(sys.executable), "/usr/bin/curl", "/usr/bin/gdb",
            "/usr/bin/inkscape", "/usr/bin/mpv", "/usr/bin/cmake", "/usr/bin/clang")


def timed(words):
    """Seconds, peak memory in bytes, the status, and what was printed."""
    begun = time.monotonic()
    child = subprocess.Popen(words, stdout=subprocess.PIPE, stderr=subprocess.DEVNULL)
    said = child.stdout.read().decode(errors="replace")
    _, status, usage = os.wait4(child.pid, 0)
    child.returncode = status
    return time.monotonic() - begun, usage.ru_maxrss * 1024, status, said


def best(call):
    return min(call() for _ in range(TRIES))


def quick(program, out):
    shutil.rmtree(out, ignore_errors=True)
    return timed([appdir, "quick", program, out])


def lddtree(program):
    """The files that lddtree lists; none where it does not run here."""
    path = "/usr/bin:" + os.environ.get("PATH", "")
    done = subprocess.run(["lddtree", "-l", program], capture_output=True, text=True, env={**os.environ, "PATH": path})
    return done.stdout.split() if done.returncode == 0 else []


def by_patchelf(program, out, bundled):
    """The program and its libraries copied and rewritten by others' tools."""
    shutil.rmtree(out, ignore_errors=True)
    os.makedirs(os.path.join(out, "usr/lib"))
    begun = time.monotonic()
    listed = lddtree(program)
    for path in listed:
        name = os.path.basename(path)
        if path != program and name not in bundled:
            continue
        to = os.path.join(out, "AppRun" if path == program else os.path.join("usr/lib", name))
        shutil.copy(path, to)
        subprocess.run(["patchelf", "--remove-rpath", to], stderr=subprocess.DEVNULL)
        subprocess.run(["patchelf", "--set-rpath", "$ORIGIN/usr/lib" if path == program else "$ORIGIN", to],
                       stderr=subprocess.DEVNULL)
        if path != program:
            subprocess.run(["patchelf", "--set-soname", name, to], stderr=subprocess.DEVNULL)
    return time.monotonic() - begun


def copied(out, to):
    shutil.rmtree(to, ignore_errors=True)
    return timed(["cp", "-r", out, to])[0]


def sizes(out):
    return {os.path.relpath(os.path.join(folder, name), out): os.path.getsize(os.path.join(folder, name))
            for folder, _, names in os.walk(out) for name in names}


def measure(room, program, others):
    out = os.path.join(room, "out")
    runs = [quick(program, out) for _ in range(TRIES)]
    seconds, peak, status, said = min(runs)
    if status != 0:
        return print(f"{program}: {said.strip()}")
    peak = max(it[1] for it in runs)
    size = sizes(out)
    texts = sum(it for name, it in size.items() if name.startswith("usr/share/appdir/"))
    objects = {name: it for name, it in size.items() if not name.startswith("usr/share/appdir/")}
    shown = best(lambda: timed([appdir, "show", program])[0])
    cp = best(lambda: copied(out, os.path.join(room, "copy")))
    print(f"{program}: {said.strip()}; {sum(objects.values()) / 1e6:.1f} MB of objects, {texts / 1e6:.1f} MB of texts")
    print(f"  quick {seconds:.3f} s; cp -r {cp:.3f} s, show {shown:.3f} s: {seconds / (4 * cp + shown):.2f} of the aim "
          f"(4 times cp -r plus show)")
    if others:
        bundled = {os.path.basename(name) for name in objects}
        theirs = best(lambda: by_patchelf(program, os.path.join(room, "theirs"), bundled))
        print(f"  lddtree, copies and patchelf {theirs:.3f} s: quick takes {seconds / theirs:.2f} of it (aim 0.50)")
    print(f"  peak {peak / 1e6:.1f} MB: {peak / (max(objects.values()) + sum(objects.values()) + 3 * texts):.2f} of the "
          f"largest file, the objects and three times the texts")


if not os.access(appdir, os.X_OK):
    sys.exit(f"there is no {appdir}: run rt ci first")
others = bool(shutil.which("patchelf") and shutil.which("lddtree") and lddtree("/bin/sh"))
if not others:
    print("patchelf and lddtree are not here, or do not run (Debian: patchelf, pax-utils, python3-pyelftools): their times "
          "are left out")
for program in given or PROGRAMS:
    if os.access(program, os.X_OK):
        room = tempfile.mkdtemp()
        try:
            measure(room, os.path.realpath(program), others)
        finally:
            shutil.rmtree(room)
PY
