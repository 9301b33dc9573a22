#!/usr/bin/env bash
# Time and memory of `rpy run` of one line under declarations of as many classes as objects, each object of a class of its own
# and exposed: 2,500 and 10,000 of each, the least of five runs, and the growth; then likewise where a `class` statement of the
# module gives each class a method. With a word, that program is measured.
cd "$(dirname "${BASH_SOURCE[0]}")/.." || exit 2
[ -n "$1" ] || ./rpy run examples/title.toml bob:examples/title.py >/dev/null || exit 1
RPY=${1:-crates/rpy/out/rpy} exec python3 - <<'PYTHON'
import os
import tempfile
import time

RPY = os.environ["RPY"]


def declarations(count, methods):
    exposed = ", ".join(f'"object{i}"' for i in range(count))
    lines = ["version = 1", 'permissions = ["p.View"]', f"expose = [{exposed}]"]
    if methods:
        module = "\n".join(f"class Class{i}:\n    def size(self):\n        return {i}" for i in range(count))
        lines.append(f'module = """\n{module}\n"""')
    for i in range(count):
        lines.append(f'[class.Class{i}]\nget = {{ title = "zope.Public" }}')
    lines.append("[principal.bob]")
    for i in range(count):
        lines.append(f'[object.object{i}]\nclass = "Class{i}"\nfields = {{ title = "Object {i}" }}')
    return "\n".join(lines) + "\n"


def run(words):
    start = time.perf_counter()
    child = os.posix_spawn(words[0], words, os.environ, file_actions=[(os.POSIX_SPAWN_OPEN, 1, "/dev/null", os.O_WRONLY, 0)])
    _, status, used = os.wait4(child, 0)
    assert os.waitstatus_to_exitcode(status) == 0, words
    return time.perf_counter() - start, used.ru_maxrss


with tempfile.TemporaryDirectory() as folder:
    script = os.path.join(folder, "script.py")
    with open(script, "w") as out:
        out.write("print(object7.title)\n")
    for methods in (False, True):
        walls = []
        for count in (2500, 10000):
            path = os.path.join(folder, f"{count}.toml")
            with open(path, "w") as out:
                out.write(declarations(count, methods))
            wall, memory = min(run([RPY, "run", path, f"bob:{script}"]) for _ in range(5))
            walls.append(wall)
            print(f"{count} classes and objects{', with methods' * methods}: {wall:.2f} s, {memory / 1024:.0f} MB")
        print(f"four times the file: {walls[1] / walls[0]:.1f} times the time")
PYTHON
