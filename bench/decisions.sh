#!/usr/bin/env bash
# Nanoseconds of a decision on reading a name of an object through a proxy, with its entry in the trail, where 10 and where 1,000
# classes are declared: on a public name, on a permission whose answer was given last, on two and on 65 such permissions in turn (64
# answers are kept), on a name that the principal is denied, and on one that no row has. Beside it the same names read through a
# proxy of zope.security in C, whose interaction has the permissions in a set: that reads the field too, and keeps no entry.
# `apt-get install python3-zope.security` gives it to /usr/bin/python3; where it is missing, its column is. Processor time, the
# least of some runs, less that of a loop of the same number of turns in which nothing is asked, on each side.
. "$(dirname "${BASH_SOURCE[0]}")/loops.sh"
python=/usr/bin/python3
[ -x "$python" ] || python=python3
exec "$python" - <<'PYTHON'
import os
import sys
import time

try:
    from zope.security.checker import CheckerPublic, NamesChecker, ProxyFactory, defineChecker
    from zope.security.interfaces import ForbiddenAttribute, Unauthorized
    from zope.security.management import newInteraction, setSecurityPolicy
    from zope.security.simplepolicies import ParanoidSecurityPolicy
except ImportError:
    ProxyFactory = None

BENCH = os.environ["RPY_BENCH"]
TURNS = 1_300_000
MANY = 65


def process(*words):
    """Processor seconds of a process."""
    child = os.spawnv(os.P_NOWAIT, BENCH, [BENCH, "decisions", *map(str, words)])
    _, status, used = os.wait4(child, 0)
    if status != 0:
        sys.exit(f"{words}: status {status}")
    return used.ru_utime + used.ru_stime


def rpy(what, classes, times=7):
    """What a turn takes, without what the process takes with nothing to do."""
    begun = min(process(what, classes, 0) for _ in range(times))
    return (min(process(what, classes, TURNS) for _ in range(times)) - begun) / TURNS


def spent(loop, times=5):
    best = None
    for _ in range(times):
        start = time.process_time()
        loop(TURNS)
        used = time.process_time() - start
        best = used if best is None else min(best, used)
    return best / TURNS


def empty(turns):
    for i in range(turns):
        pass


def caught(turns):
    """An empty loop with the `try` of the refused names."""
    for i in range(turns):
        try:
            pass
        except ValueError:
            pass


def public(o):
    def loop(turns):
        for i in range(turns):
            o.open

    return loop


def front(o):
    def loop(turns):
        for i in range(turns):
            o.name0

    return loop


def two(o):
    def loop(turns):
        for i in range(turns // 2):
            o.name0
            o.name1

    return loop


def many(o):
    names = [f"name{i}" for i in range(MANY)]

    def loop(turns):
        for i in range(turns // MANY):
            for name in names:
                getattr(o, name)

    return loop


def many_names(turns):
    names = [f"name{i}" for i in range(MANY)]
    for i in range(turns // MANY):
        for name in names:
            getattr
            name


def denied(o):
    def loop(turns):
        for i in range(turns):
            try:
                o.closed
            except Unauthorized:
                pass

    return loop


def forbidden(o):
    def loop(turns):
        for i in range(turns):
            try:
                o.keys
            except ForbiddenAttribute:
                pass

    return loop


def proxied(classes):
    """A proxy of an object of the last of so many classes, each with a checker of its own."""
    granted = {f"p{i}" for i in range(MANY)}

    class Policy(ParanoidSecurityPolicy):
        def checkPermission(self, permission, object):
            return permission is CheckerPublic or permission in granted

    class Participation:
        principal = None
        interaction = None

    setSecurityPolicy(Policy)
    newInteraction(Participation())
    rows = {f"name{i}": f"p{i}" for i in range(MANY)}
    rows["open"] = CheckerPublic
    rows["closed"] = "closed"
    for place in range(classes):
        of = type(f"Class{place}", (), {})
        defineChecker(of, NamesChecker([], **rows))
    o = of()
    for name in (*rows, "keys"):
        setattr(o, name, 1)
    return ProxyFactory(o)


LOOPS = [
    ("public", public, empty),
    ("needed, given last", front, empty),
    ("two in turn", two, empty),
    ("65 in turn", many, many_names),
    ("denied", denied, caught),
    ("forbidden", forbidden, caught),
]
WORDS = ["public", "front", "two", "many", "denied", "forbidden"]
for classes in (10, 1000):
    idle = rpy("idle", classes)
    # What our processes take is measured before this one is large: a child begins with a copy of it.
    ours = [(rpy(word, classes) - idle) * 1e9 for word in WORDS]
    print(f"{classes} classes, an idle turn: {idle * 1e9:.1f} ns")
    if ProxyFactory is not None:
        o = proxied(classes)
        theirs = [(spent(loop(o)) - spent(other)) * 1e9 for _, loop, other in LOOPS]
        from zope.security.management import endInteraction

        endInteraction()
    for place, (title, _, _) in enumerate(LOOPS):
        line = f"{title}: rpy {ours[place]:.1f} ns"
        if ProxyFactory is not None:
            line += f", zope.security {theirs[place]:.1f} ns, its over ours {theirs[place] / max(ours[place], 0.1):.1f}"
        print(line)
PYTHON
