#!/usr/bin/env bash
# Packs real programs of this machine, puts each AppDir into four places, and sets it beside the original there: what it
# prints, and what the machine's own loader opens, loads, checks and binds. It needs the built program
# (crates/appdir/out/appdir), python3 and readelf. What the machine lacks is skipped, with a word. Programs may be given in
# place of those that are tried.
set -u
cd "$(dirname "$0")/.." || exit 1
exec python3 - "$PWD/crates/appdir/out/appdir" "$@" <<'PY'
import os, re, shutil, subprocess, sys, tempfile

appdir, given = sys.argv[1], sys.argv[2:]
# Folders in which an AppDir is put: a loader splits run paths at colons, and replaces $ORIGIN in them.
PLACES = ("plain", "a:b", "with a space", "$ORIGIN")
PROGRAMS = ("/usr/bin/git", "/usr/bin/perl", os.path.realpath(sys.executable), "/usr/bin/curl", "/usr/bin/gdb",
            "/usr/bin/gcc", "/usr/bin/vim", "/usr/bin/cmake", "/usr/bin/openssl", "/usr/bin/cat", "/usr/bin/env")
TRACE = {"LD_TRACE_LOADED_OBJECTS": "1", "LD_WARN": "yes", "LD_BIND_NOW": "1", "LD_DEBUG": "libs,versions,bindings"}
AT_LEAST = 4

passed, failed, skipped, packed = 0, 0, 0, 0


def ok(what):
    global passed
    passed += 1
    print("ok:", what, flush=True)


def fail(what):
    global failed
    failed += 1
    print("FAILED:", what, flush=True)


def skip(what):
    global skipped
    skipped += 1
    print("skipped:", what, flush=True)


def run(words, env=None, executable=None):
    done = subprocess.run(words, env=env if env is not None else os.environ, executable=executable,
                          stdin=subprocess.DEVNULL, capture_output=True)
    return done.returncode, done.stdout.decode(errors="replace"), done.stderr.decode(errors="replace")


class Trace:
    """What the machine's own loader says of a program that it maps and does not run."""

    def __init__(self, program, room):
        prefix = os.path.join(room, "debug")
        for name in os.listdir(room):
            if name.startswith("debug"):
                os.unlink(os.path.join(room, name))
        _, self.listed, self.complaints = run([program], env={**TRACE, "LD_DEBUG_OUTPUT": prefix})
        said = "".join(open(os.path.join(room, name), errors="replace").read()
                       for name in sorted(os.listdir(room)) if name.startswith("debug"))
        paths = re.findall(r"^\t(?:.* => )?(/.*) \(0x[0-9a-f]+\)$", self.listed, re.M)
        self.files = [program] + paths
        numbers = {path: number for number, path in enumerate(self.files)}
        self.tried = re.findall(r"trying file=(.*)$", said, re.M)

        def number(path):
            return numbers.get(path, path)

        self.versions = sorted({(number(by), number(file), version) for version, file, by in re.findall(
            r"checking for version `([^']*)' in file (.*) \[0\] required by file (.*) \[0\]$", said, re.M)
            if not file.startswith("linux-vdso")}, key=repr)
        self.bindings = sorted({(number(by), number(to), symbol, version) for by, to, symbol, version in re.findall(
            r"binding file (.*) \[0\] to (.*) \[0\]: \w+ symbol `([^']*)'(?: \[(.*)\])?$", said, re.M)
            if not to.startswith("linux-vdso")}, key=repr)


def build_id(path):
    said = run(["readelf", "-n", path])[1]
    found = re.search(r"Build ID: (\w+)", said)
    return found and found.group(1)


def without_sections(path, room):
    """A copy whose header names no sections: readelf takes strings from the section headers where there are any, and these
    are copied as they were; a loader reads segments."""
    with open(path, "rb") as file:
        data = bytearray(file.read())
    data[40:48] = bytes(8)
    data[60:64] = bytes(4)
    copy = os.path.join(room, "segments")
    with open(copy, "wb") as file:
        file.write(data)
    return copy


def needs_and_paths(path, room):
    """The needs, RPATHs and RUNPATHs that readelf finds, and what it complains of."""
    _, said, complaints = run(["readelf", "-dW", without_sections(path, room)])
    return (re.findall(r"\(NEEDED\).*\[(.*)\]", said), re.findall(r"\(RPATH\).*\[(.*)\]", said),
            re.findall(r"\(RUNPATH\).*\[(.*)\]", said), complaints + run(["readelf", "-lW", path])[2])


def host_names(out):
    with open(os.path.join(out, "usr/share/appdir/host.txt")) as text:
        return {line.split(" ")[1].strip() for line in text if line.startswith("lib ")}


def written_objects(out):
    libraries = os.path.join(out, "usr/lib")
    names = sorted(os.listdir(libraries)) if os.path.isdir(libraries) else []
    return [("AppRun", os.path.join(out, "AppRun"))] + [(name, os.path.join(libraries, name)) for name in names]


def check_run_paths(what, out, room):
    """No RPATH, and a run path exactly where a need is bundled."""
    objects = written_objects(out)
    bundled = {name for name, _ in objects[1:]}
    wrong = []
    for name, path in objects:
        needs, rpaths, runpaths, complaints = needs_and_paths(path, room)
        planned = ["$ORIGIN/usr/lib" if name == "AppRun" else "$ORIGIN"] if bundled & set(needs) else []
        if rpaths or runpaths != planned or complaints:
            wrong.append(f"{name} has {rpaths} and {runpaths}, planned {planned} {complaints}")
    fail(f"{what}: {wrong[:3]}") if wrong else ok(f"{what}: run paths of {len(objects)} objects")


def same_trace(old, new, place, hosts):
    """Why the loader does not do the same in the place, or nothing."""
    if "not found" in new.listed + new.complaints or "no version information" in new.listed + new.complaints:
        return f"the loader complains: {new.listed}{new.complaints}"
    if len(old.files) != len(new.files):
        return f"{len(old.files)} files, and {len(new.files)} in the place"
    for a, b in zip(old.files, new.files):
        if b.startswith(place + "/"):
            if build_id(a) != build_id(b):
                return f"{b} stands for {a} and is another file"
        elif os.path.basename(b) not in hosts or os.path.realpath(a) != os.path.realpath(b):
            return f"{b} stands for {a} and is no listed file of the host"
    for path in new.tried:
        if os.path.exists(path) and not path.startswith(place + "/") and os.path.basename(path) not in hosts:
            return f"{path} is opened"
    if not old.bindings or old.bindings != new.bindings:
        return f"other bindings: {sorted(set(old.bindings) ^ set(new.bindings), key=repr)[:3]}"
    if old.versions != new.versions:
        return f"other versions: {sorted(set(old.versions) ^ set(new.versions), key=repr)[:3]}"
    return None


def check(program, room):
    """Packs a program, and starts it from each place."""
    global packed
    if not os.access(program, os.X_OK):
        return skip(f"{program} is not here")
    program = os.path.realpath(program)
    out, again = os.path.join(room, "out"), os.path.join(room, "again")
    status, line, complaints = run([appdir, "quick", program, out])
    if status != 0:
        return fail(f"quick {program}: {line}{complaints}")
    ok(f"quick {program}: {line.strip()}")
    run([appdir, "quick", program, again])
    if run(["diff", "-r", out, again])[0] != 0:
        return fail(f"{program}: a second call writes other bytes")
    check_run_paths(program, out, room)
    hosts, old = host_names(out), Trace(program, room)
    version = run([program, "--version"], env={})
    for name in PLACES:
        place = os.path.join(room, "places", name)
        shutil.copytree(out, place)
        # under its old name, for programs that say their name
        there = run([program, "--version"], env={}, executable=os.path.join(place, "AppRun"))
        if there != version:
            return fail(f"{program} in '{name}' prints {there}, and not {version}")
        new = Trace(os.path.join(place, "AppRun"), room)
        wrong = same_trace(old, new, place, hosts)
        if wrong:
            return fail(f"{program} in '{name}': {wrong}")
        shutil.rmtree(place)
    packed += 1
    ok(f"{program}: the same in {len(PLACES)} places, {len(old.files)} files, {len(old.versions)} versions and "
       f"{len(old.bindings)} bindings")


if not os.access(appdir, os.X_OK):
    sys.exit(f"there is no {appdir}: run rt ci first")
if not shutil.which("readelf"):
    sys.exit("there is no readelf")
for program in given or PROGRAMS:
    room = tempfile.mkdtemp()
    try:
        check(program, room)
    finally:
        shutil.rmtree(room)
if not given and packed < AT_LEAST:
    fail(f"only {packed} programs were packed, and not {AT_LEAST}")
print(f"appdirs: {passed} passed, {failed} failed, {skipped} skipped")
sys.exit(failed > 0)
PY
