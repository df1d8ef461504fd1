#!/usr/bin/env bash
# Packs small programs by the configurations in examples/, moves each AppDir away from what it was packed from, and looks
# at what is in it: the desktop file, the icon, a tool that is started from usr/bin, and a plugin that the program opens
# while it runs. It needs the built program (crates/appdir/out/appdir), python3 and a C compiler. What the machine lacks is
# skipped, with a word.
set -u
cd "$(dirname "$0")/.." || exit 1
exec python3 - "$PWD/crates/appdir/out/appdir" "$PWD/examples" <<'PY'
import os, shutil, struct, subprocess, sys, tempfile, time, zlib

appdir, examples = sys.argv[1:3]
passed, failed, skipped = 0, 0, 0

SOURCES = {
    "libexample-words.so.1": ('const char *words(void) { return "hello from a bundled library"; }\n', []),
    "libexample-plugin.so": ('const char *plugin(void) { return "hello from a plugin"; }\n', []),
    "hello": ("#include <stdio.h>\nconst char *words(void);\nint main(void) { puts(words()); return 0; }\n", ["words"]),
    "count": ("#include <stdio.h>\n#include <string.h>\nconst char *words(void);\n"
              'int main(void) { printf("%zu\\n", strlen(words())); return 0; }\n', ["words"]),
    "host": ("#include <dlfcn.h>\n#include <stdio.h>\nint main(void) {\n"
             '  void *library = dlopen("libexample-plugin.so", RTLD_NOW);\n'
             "  if (!library) { fprintf(stderr, \"%s\\n\", dlerror()); return 1; }\n"
             '  const char *(*plugin)(void) = (const char *(*)(void))dlsym(library, "plugin");\n'
             "  puts(plugin());\n  return 0;\n}\n", []),
}


def ok(what):
    global passed
    passed += 1
    print("ok:", what, flush=True)


def fail(what):
    global failed
    failed += 1
    print("FAILED:", what, flush=True)


def skip(what):
    global skipped
    skipped += 1
    print("skipped:", what, flush=True)


def check(what, holds, why=""):
    ok(what) if holds else fail(f"{what} {why}")


def run(words, env=None):
    done = subprocess.run(words, env=env if env is not None else os.environ, stdin=subprocess.DEVNULL,
                          capture_output=True)
    return done.returncode, done.stdout.decode(errors="replace"), done.stderr.decode(errors="replace")


def compiled(where):
    """Two libraries and three programs, which find the libraries in `lib`."""
    for folder in ("bin", "lib"):
        os.makedirs(os.path.join(where, folder))
    lib = os.path.join(where, "lib")
    for name, (code, needs) in SOURCES.items():
        source = os.path.join(where, "source.c")
        with open(source, "w") as text:
            text.write(code)
        if name.startswith("lib"):
            words = ["-shared", "-fPIC", f"-Wl,-soname,{name}", "-o", os.path.join(lib, name)]
        else:
            words = [f"-Wl,-rpath,{lib}", "-o", os.path.join(where, "bin", name)]
        linked = [os.path.join(lib, f"libexample-{need}.so.1") for need in needs]
        status, _, said = run(["cc", source, *words, *linked, "-ldl"])
        if status != 0:
            sys.exit(f"cc makes no {name}: {said}")


def picture():
    """A PNG of one point."""
    def chunk(kind, data):
        return struct.pack(">I", len(data)) + kind + data + struct.pack(">I", zlib.crc32(kind + data))

    return (b"\x89PNG\r\n\x1a\n" + chunk(b"IHDR", struct.pack(">IIBBBBB", 1, 1, 8, 2, 0, 0, 0))
            + chunk(b"IDAT", zlib.compress(b"\0\x2e\x8b\x57")) + chunk(b"IEND", b""))


def example(name, where, room):
    """The configuration of an example, with the files of this check in place of those in /opt/example."""
    with open(os.path.join(examples, name)) as text:
        config = text.read().replace("/opt/example", where)
    path = os.path.join(room, name)
    with open(path, "w") as text:
        text.write(config)
    return path


def built(name, where, room):
    """The AppDir of an example, moved away from where it was made; nothing where it was refused."""
    out = os.path.join(room, name + ".AppDir")
    status, line, complaints = run([appdir, "build", example(name, where, room), out])
    if status != 0:
        fail(f"build {name}: {line}{complaints}")
        return None
    ok(f"build {name}: {line.strip()}")
    again = os.path.join(room, name + ".again")
    run([appdir, "build", os.path.join(room, name), again])
    check(f"{name}: a second call writes the same", run(["diff", "-r", out, again])[0] == 0)
    asked = run([appdir, "host", out])
    check(f"{name}: host meets", asked[:2] == (0, "meets\n"), asked)
    moved = os.path.join(room, "moved", name, "a:b c")
    os.makedirs(os.path.dirname(moved))
    shutil.move(out, moved)
    return moved


def content(path):
    with open(path, "rb") as file:
        return file.read()


def check_desktop(name, moved, where, written):
    desktop = os.path.join(moved, "hello.desktop")
    check(f"{name}: the desktop file is copied", content(desktop) == written)
    icon = content(os.path.join(where, "hello.png"))
    check(f"{name}: .DirIcon has the icon's bytes",
          content(os.path.join(moved, ".DirIcon")) == icon == content(os.path.join(moved, "hello.png")))
    if shutil.which("desktop-file-validate"):
        said = run(["desktop-file-validate", desktop])
        check(f"{name}: desktop-file-validate", said[0] == 0, said)
    else:
        skip("desktop-file-validate is not here (package desktop-file-utils)")


def prints(what, program, text):
    done = run([program], env={})
    check(f"{what} prints {text!r}", done[:2] == (0, text + "\n"), done)


def check_all(room):
    where = os.path.join(room, "made")
    compiled(where)
    shutil.copy(os.path.join(examples, "hello.desktop"), where)
    with open(os.path.join(where, "hello.png"), "wb") as icon:
        icon.write(picture())
    with open(os.path.join(where, "greeting.txt"), "w") as text:
        text.write("good day\n")
    places = {}
    for name in ("plain.toml", "tools.toml", "desktop.toml"):
        places[name] = built(name, where, room)
    # the program of the plugins has another name than that of the desktop file
    host_desktop = os.path.join(where, "hello.desktop")
    kept = content(host_desktop)
    for_host = kept.replace(b"Exec=hello", b"Exec=host")
    with open(host_desktop, "wb") as text:
        text.write(for_host)
    refused = run([appdir, "build", os.path.join(room, "plain.toml"), os.path.join(room, "none")])
    check("another program in Exec is refused", refused[:2] == (1, "refused 45: Exec names host\n"), refused)
    places["plugins.toml"] = built("plugins.toml", where, room)
    for name, moved in places.items():
        if moved:
            check_desktop(name, moved, where, for_host if name == "plugins.toml" else kept)
    # what the AppDirs were packed from goes away
    with open(host_desktop, "wb") as text:
        text.write(kept)
    os.rename(where, where + ".gone")
    for name in ("plain.toml", "desktop.toml", "tools.toml"):
        if places[name]:
            prints(name, os.path.join(places[name], "AppRun"), "hello from a bundled library")
    if places["tools.toml"]:
        moved = places["tools.toml"]
        prints("a tool in usr/bin", os.path.join(moved, "usr/bin/count"), "28")
        prints("a tool of another name", os.path.join(moved, "usr/bin/tally"), "28")
        check("data is copied", content(os.path.join(moved, "usr/share/hello/greeting.txt")) == b"good day\n")
    if places["plugins.toml"]:
        program = os.path.join(places["plugins.toml"], "AppRun")
        prints("a program with an opened plugin", program, "hello from a plugin")
        os.unlink(os.path.join(places["plugins.toml"], "usr/lib/libexample-plugin.so"))
        check("without the bundled plugin it finds none", run([program], env={})[0] == 1)


def window(room):
    """A window of a small desktop program comes up from its moved AppDir: the frame buffer of an X server is another with
    it than without."""
    program = next((path for path in ("/usr/bin/xclock", "/usr/bin/xeyes") if os.access(path, os.X_OK)), None)
    if not program or not shutil.which("Xvfb"):
        return skip("no window: Xvfb or a small desktop program is not here (packages xvfb, x11-apps)")
    where, name = os.path.join(room, "window"), os.path.basename(program)
    os.makedirs(where)
    with open(os.path.join(where, f"{name}.desktop"), "w") as text:
        text.write(f"[Desktop Entry]\nType=Application\nName={name}\nExec={name}\nIcon={name}\n")
    with open(os.path.join(where, f"{name}.png"), "wb") as icon:
        icon.write(picture())
    with open(os.path.join(examples, "desktop.toml")) as text:
        config = text.read().replace("/opt/example/bin/hello", os.path.realpath(program))
    with open(os.path.join(where, "window.toml"), "w") as text:
        text.write(config.replace("/opt/example/hello", os.path.join(where, name)))
    made, moved = os.path.join(where, "made"), os.path.join(where, "a place", "moved")
    status, line, complaints = run([appdir, "build", os.path.join(where, "window.toml"), made])
    if status != 0:
        return fail(f"build {program}: {line}{complaints}")
    os.makedirs(os.path.dirname(moved))
    shutil.move(made, moved)
    shown = screens(os.path.join(moved, "AppRun"), where)
    check(f"the window of {name} comes up from its moved AppDir: {line.strip()}", shown)


def screens(program, where):
    """Whether a frame buffer is another once the program has started."""
    server = subprocess.Popen(["Xvfb", "-displayfd", "1", "-screen", "0", "320x240x24", "-fbdir", where],
                              stdout=subprocess.PIPE, stderr=subprocess.DEVNULL)
    try:
        display = ":" + server.stdout.readline().decode().strip()
        frame = os.path.join(where, "Xvfb_screen0")
        before = content(frame)
        client = subprocess.Popen([program], env={"DISPLAY": display}, stderr=subprocess.DEVNULL)
        try:
            for _ in range(100):
                time.sleep(0.1)
                if content(frame) != before:
                    return True
            return False
        finally:
            client.kill()
            client.wait()
    finally:
        server.terminate()
        server.wait()


if not os.access(appdir, os.X_OK):
    sys.exit(f"there is no {appdir}: run rt ci first")
if not shutil.which("cc"):
    sys.exit("there is no cc")
room = tempfile.mkdtemp()
try:
    check_all(room)
    window(room)
finally:
    shutil.rmtree(room)
print(f"desktop: {passed} passed, {failed} failed, {skipped} skipped")
sys.exit(failed > 0)
PY
