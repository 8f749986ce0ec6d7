#!/usr/bin/env python3
"""Checks worlds that move at doubled sizes with the built program, and prints how the time grows.

usage: growth.py [PROGRAM]

Each world is checked at three sizes, each twice the one before. The last column is the time at the
largest size by that at the middle one: about 2 where the time grows with the size, about 4 where it
grows with its square. The time is that of user and system together, the least of three runs.

Then a plan is searched beside so many atoms and fluents that nothing touches. Its time is what 20,000
tries take more than one try, which pays for reading and grounding: it should not grow.
"""
import os, subprocess, sys, tempfile

TOP = os.path.dirname(os.path.dirname(os.path.abspath(__file__)))
PROGRAM = os.path.abspath(sys.argv[1]) if len(sys.argv) > 1 else os.path.join(TOP, "planplus")

TANKS = """(define (domain tanks)
 (:predicates (open ?t)) (:functions (level ?t) (cap ?t))
 (:action open-valve :parameters (?t) :precondition (not (open ?t)) :effect (open ?t))
 (:process fill :parameters (?t) :precondition (open ?t) :effect (increase (level ?t) (* #t 2)))
 (:event full :parameters (?t) :precondition (and (open ?t) (>= (level ?t) (cap ?t))) :effect (not (open ?t))))
"""

ROOMS = """(define (domain rooms)
 (:predicates (heat ?r)) (:functions (x ?r) (up ?r))
 (:process warm :parameters (?r) :precondition (heat ?r) :effect (increase (x ?r) (* #t (up ?r))))
 (:process cool :parameters (?r) :precondition (not (heat ?r)) :effect (decrease (x ?r) (* #t 1)))
 (:event off :parameters (?r) :precondition (and (heat ?r) (>= (x ?r) 2)) :effect (not (heat ?r)))
 (:event on :parameters (?r) :precondition (and (not (heat ?r)) (<= (x ?r) 0)) :effect (heat ?r)))
"""

MARKS = """(define (domain marks)
 (:predicates (armed)) (:functions (v ?x) (a ?x))
 (:process rise :parameters (?x) :effect (increase (v ?x) (* #t 1)))
 (:event hit :parameters (?x) :precondition (and (armed) (= (v ?x) (a ?x)) (< (v ?x) 0)) :effect (not (armed))))
"""

FIRES = """(define (domain fires)
 (:predicates (on ?x)) (:functions (n))
 (:action all :effect (forall (?x) (on ?x)))
 (:action one :parameters (?x) :effect (on ?x))
 (:event fire :parameters (?x) :precondition (on ?x) :effect (and (not (on ?x)) (increase (n) 1))))
"""

LAMP = """(define (domain lamp)
 (:predicates (lit)) (:functions (x))
 (:process glow :precondition (lit) :effect (increase (x) (* #t 1))))
"""


IDLE = """(define (domain idle)
 (:types room thing)
 (:predicates (heat ?r - room) (seen) (mark ?t - thing))
 (:functions (x ?r - room) (up ?r - room) (size ?t - thing))
 (:process warm :parameters (?r - room) :precondition (heat ?r) :effect (increase (x ?r) (* #t (up ?r))))
 (:process cool :parameters (?r - room) :precondition (not (heat ?r)) :effect (decrease (x ?r) (* #t 1)))
 (:event off :parameters (?r - room) :precondition (and (heat ?r) (>= (x ?r) 2)) :effect (not (heat ?r)))
 (:event on :parameters (?r - room) :precondition (and (not (heat ?r)) (<= (x ?r) 0)) :effect (heat ?r))
 (:action note :parameters () :precondition (and) :effect (seen)))
"""


def names(count):
    return [f"o{i}" for i in range(count)]


def problem(domain, objects, init, goal="(and)"):
    return f"(define (problem q) (:domain {domain}) (:objects {' '.join(objects)})\n (:init {init})\n (:goal {goal}))\n"


def tanks(count, times):
    """So many tanks, opened at these times, each full soon after."""
    objects = names(count)
    init = "".join(f"(= (level {x}) 0)(= (cap {x}) {1 + i % 5})" for i, x in enumerate(objects))
    lines = "".join(f"{times(i)}: (open-valve {x})\n" for i, x in enumerate(objects))
    return TANKS, problem("tanks", objects, init), lines + f"{count + 9}: @end\n"


def one_by_one(count):
    return tanks(count, lambda i: i)


def together(count):
    return tanks(count, lambda i: 1)


def chain(count):
    """A cascade of as many rounds as there are events."""
    events = "".join(f" (:event e{i} :precondition (p{i}) :effect (and (not (p{i})) (p{i + 1})))\n" for i in range(count))
    atoms = " ".join(f"(p{i})" for i in range(count + 1))
    domain = f"(define (domain chain) (:predicates {atoms})\n (:action go :effect (p0))\n{events})\n"
    return domain, problem("chain", [], ""), "1: (go)\n2: @end\n"


def fires(count):
    """One event at each moment, beside as many that could happen."""
    lines = "".join(f"{i}: (one o{i * 37 % count})\n" for i in range(count))
    return FIRES, problem("fires", names(count), "(= (n) 0)"), lines


def long_time(count):
    """One room, and so much time."""
    return ROOMS, problem("rooms", ["a"], "(heat a)(= (x a) 0)(= (up a) 1)"), f"{count}: @end\n"


def literals(count):
    init = "".join(f"(at {i + 1} {'(not (lit))' if i % 2 else '(lit)'})" for i in range(count))
    return LAMP, problem("lamp", [], "(= (x) 0)" + init), f"{count + 9}: @end\n"


def lines_at_once(count):
    """So many lines at one time, each on a tank of its own."""
    return tanks(count, lambda i: 0)


def marks(count):
    """So many moments at which a comparison of a fluent that moves turns, one moving fluent to each."""
    init = "(armed)" + "".join(f"(= (v {x}) 0)(= (a {x}) {i + 1})" for i, x in enumerate(names(count)))
    return MARKS, problem("marks", names(count), init), f"{count + 9}: @end\n"


def idle(count):
    """Two rooms to search over, beside so many atoms and fluents."""
    things = [f"t{i}" for i in range(count)]
    init = "".join(f"(heat {r})(= (x {r}) 0)(= (up {r}) {i + 1})" for i, r in enumerate("ab"))
    init += "".join(f"(mark {t})(= (size {t}) {i % 97})" for i, t in enumerate(things))
    return IDLE, problem("idle", ["a", "b", "- room", *things, "- thing"], init, "(= (x a) 7)")


WORLDS = (
    ("tanks opened one by one", one_by_one, 2500),
    ("tanks opened together", together, 1250),
    ("lines at one time", lines_at_once, 1250),
    ("a cascade of so many rounds", chain, 2000),
    ("events that happen one by one", fires, 2500),
    ("a thermostat, so much time", long_time, 200000),
    ("timed literals", literals, 7500),
    ("fluents that move, times crossings", marks, 100),
)


def seconds(words, folder):
    child = subprocess.Popen([PROGRAM] + words, cwd=folder, stdin=subprocess.DEVNULL, stdout=subprocess.DEVNULL, stderr=subprocess.DEVNULL)
    _, status, usage = os.wait4(child.pid, 0)
    child.returncode = 0
    return usage.ru_utime + usage.ru_stime, os.waitstatus_to_exitcode(status)


def searched(count):
    """What 20,000 tries take more than one."""
    with tempfile.TemporaryDirectory() as folder:
        for name, text in zip("dp", idle(count)):
            with open(os.path.join(folder, name), "w") as file:
                file.write(text)
        one, many = (min(seconds(["plan", "1/4", "14", tries, "d", "p"], folder)[0] for _ in range(3)) for tries in ("1", "20000"))
    return many - one


def main():
    print(f"{'world':36}{'size':>9}{'seconds':>9}{'twice':>9}{'four times':>12}   growth")
    for title, make, size in WORLDS:
        times = []
        for count in (size, 2 * size, 4 * size):
            with tempfile.TemporaryDirectory() as folder:
                for name, text in zip("dpl", make(count)):
                    with open(os.path.join(folder, name), "w") as file:
                        file.write(text)
                runs = [seconds(["check", "d", "p", "l", "--happenings", "1000000"], folder) for _ in range(3)]
                if any(status not in (0, 1) for _, status in runs):
                    sys.exit(f"{title} at size {count}: status {runs[0][1]}")
                times.append(min(time for time, _ in runs))
        growth = times[2] / times[1] if times[1] else 0
        print(f"{title:36}{size:9}{times[0]:9.3f}{times[1]:9.3f}{times[2]:12.3f}{growth:9.1f}", flush=True)
    for count in (125, 500, 2000, 8000):
        print(f"a search beside {count} atoms and fluents: {searched(count):.3f}", flush=True)


main()
