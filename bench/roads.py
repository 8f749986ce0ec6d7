#!/usr/bin/env python3
"""Searches a map of 100 places and 300 roads, on which an action drives between each two places, and prints what each program answers and
how long it takes. Only the roads can be driven, so 300 of 10,000 actions may be done.

usage: bench/roads.py [PROGRAM ..]    by default the program that the gate built
"""
import os
import random
import subprocess
import sys
import tempfile
import time

TOP = os.path.dirname(os.path.dirname(os.path.abspath(__file__)))
PLACES = 100
ROADS = 300
DOMAIN = """(define (domain roads)
 (:predicates (at ?place) (road ?from ?to))
 (:action drive :parameters (?from ?to) :precondition (and (at ?from) (road ?from ?to)) :effect (and (not (at ?from)) (at ?to))))
"""


def roads():
    """A ring through all places, and further roads between any two; always the same."""
    chance = random.Random(1)
    found = {(at, (at + 1) % PLACES) for at in range(PLACES)}
    while len(found) < ROADS:
        found.add(tuple(chance.sample(range(PLACES), 2)))
    return sorted(found)


def farthest(found):
    """The place that is most roads away from the first, and how many that is."""
    away, edge = {0: 0}, [0]
    for place in edge:
        for start, end in found:
            if start == place and end not in away:
                away[end] = away[place] + 1
                edge.append(end)
    return edge[-1], away[edge[-1]]


def problem(found, goal):
    lines = " ".join(f"(road p{start} p{end})" for start, end in found)
    places = " ".join(f"p{at}" for at in range(PLACES))
    return f"(define (problem map) (:domain roads) (:objects {places}) (:init (at p0) {lines}) (:goal (at p{goal})))\n"


def main(programs):
    found = roads()
    goal, decisions = farthest(found)
    with tempfile.TemporaryDirectory() as folder:
        for name, text in (("d", DOMAIN), ("p", problem(found, goal))):
            with open(f"{folder}/{name}", "w", encoding="utf-8") as out:
                out.write(text)
        for program in programs:
            for left, tries in ((2, 10**6), (decisions, 10**4), (decisions, 10**5), (decisions, 10**6)):
                start = time.perf_counter()
                words = [os.path.abspath(program), "plan", "1", str(left), str(tries), "d", "p"]
                answer = subprocess.run(words, cwd=folder, capture_output=True, text=True, check=False).stdout
                took = time.perf_counter() - start
                told = answer.strip() if answer.count("\n") == 1 else f"a plan of {answer.count('drive')} roads"
                print(f"{program}: {left} decisions, {tries} tries: {told}, {took:.2f} s")


main(sys.argv[1:] or [f"{TOP}/crates/planplus/out/planplus"])
