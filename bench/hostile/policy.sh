#!/usr/bin/env bash
# The processor seconds and peak megabytes of `./rpy may` on each file that bench/hostile/policy.py writes, the least of three runs:
# classes each like the next beside as many that are like none, and a principal in 1,000 groups of 20 roles of 1,000 permissions,
# once with 20 roles in all and once with as many as fit.
# Each is answered with status 0 or 1, or the line says what status it had. Builds what it needs. Asks for Linux (wait4).
cd "$(dirname "${BASH_SOURCE[0]}")/../.." || exit 2
./rpy >/dev/null 2>&1 </dev/null
folder=$(mktemp -d) || exit 2
trap 'rm -r "$folder"' EXIT
for kind in plain chain roles wide; do
    python3 bench/hostile/policy.py "$kind" "$folder/$kind.toml" || exit 2
    python3 - "$kind" "$folder/$kind.toml" <<'PYTHON'
import os
import sys

kind, path = sys.argv[1:]
permission = "p.0"
runs = []
for _ in range(3):
    child = os.fork()
    if child == 0:
        sink = os.open(os.devnull, os.O_WRONLY)
        os.dup2(sink, 1)
        os.execv("crates/rpy/out/rpy", ["rpy", "may", path, "bob", permission])
    _, status, used = os.wait4(child, 0)
    runs.append((used.ru_utime + used.ru_stime, used.ru_maxrss / 1024, os.waitstatus_to_exitcode(status)))
seconds, megabytes, status = min(runs)
print(f"{kind}: {os.path.getsize(path):,} bytes, {seconds:.3f} s, {megabytes:.0f} MB, status {status}")
PYTHON
done
