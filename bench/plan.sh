#!/usr/bin/env bash
# Checks plans of up to a mebibyte with the built program, and prints time and peak memory: plans of several shapes over
# a handful of atoms; lines that change one atom of a hundred and of 193,600, which should take equally long but for the
# reading of the problem; lines that change one fluent of 48,400; and an action over 10,000 objects, called again and
# again.
set -eu
top=$(cd "$(dirname "$0")/.." && pwd)
work=$(mktemp -d)
trap 'rm -rf "$work"' EXIT
cat > "$work/d" <<'PDDL'
(define (domain lamp) (:predicates (on) (off) (warm) (cold))
 (:action switch-on :precondition (off) :effect (and (on) (not (off))))
 (:action switch-off :precondition (on) :effect (and (off) (not (on)))))
PDDL
echo '(define (problem l1) (:domain lamp) (:init (off) (cold)) (:goal (off)))' > "$work/p"
for size in 1000 10000; do
    awk -v n="$size" 'BEGIN { for (i = 1; i < n; i += 2) { print i ": (switch-on)"; print i + 1 ": (switch-off)" } }' > "$work/l"
    echo "plan of $(wc -c < "$work/l") bytes, $(wc -l < "$work/l") lines, one time a line"
    /usr/bin/time -f '  %e s, %M KiB' "$top/planplus" check "$work/d" "$work/p" "$work/l" | tail -n 1
done
# all at one time: as many lines as a mebibyte holds, one entry
awk 'BEGIN { for (i = 0; i < 33000; i++) { print "0: (switch-on)"; print "0: (switch-off)" } }' > "$work/l"
echo "plan of $(wc -c < "$work/l") bytes, $(wc -l < "$work/l") lines, all at time 0"
/usr/bin/time -f '  %e s, %M KiB' "$top/planplus" check "$work/d" "$work/p" "$work/l" | tail -n 1

# prints so many names of two letters: aa, ab, ..
names() {
    awk -v n="$1" 'BEGIN { for (i = 0; i < n; i++) printf "%c%c ", 97 + int(i / 26), 97 + i % 26 }'
}

# prints a problem of this domain with so many objects
problem() {
    echo "(define (problem many) (:domain $1) (:objects $(names "$2")) (:init) (:goal (and)))"
}

# prints so many lines, each of which calls one of two actions for two of so many objects
pairs() {
    awk -v lines="$1" -v n="$2" -v first="$3" -v second="$4" 'BEGIN {
        for (i = 0; i < n; i++) name[i] = sprintf("%c%c", 97 + int(i / 26), 97 + i % 26)
        for (i = 0; i < lines; i++) {
            pair = int(i / 2)
            print "0: (" (i % 2 ? second : first) " " name[pair % n] " " name[pair * 7 % n] ")"
        }
    }'
}

check() {
    /usr/bin/time -f '  %e s, %M KiB' "$top/planplus" check "$work/d" "$work/p" "$work/l" | tail -n 1
}

cat > "$work/d" <<'PDDL'
(define (domain lamps) (:predicates (on ?row ?column))
 (:action switch-on :parameters (?row ?column) :precondition (not (on ?row ?column)) :effect (on ?row ?column))
 (:action switch-no :parameters (?row ?column) :precondition (on ?row ?column) :effect (not (on ?row ?column))))
PDDL
for objects in 10 440; do
    problem lamps "$objects" > "$work/p"
    : > "$work/l"
    echo "no line over $((objects * objects)) atoms"
    check
    pairs 40000 "$objects" switch-on switch-no > "$work/l"
    echo "40000 lines that change one atom of $((objects * objects))"
    check
done
cat > "$work/d" <<'PDDL'
(define (domain tanks) (:functions (level ?row ?column))
 (:action fill :parameters (?row ?column) :effect (assign (level ?row ?column) 1))
 (:action drain :parameters (?row ?column) :effect (decrease (level ?row ?column) 0.5)))
PDDL
problem tanks 220 > "$work/p"
pairs 40000 220 fill drain > "$work/l"
echo "40000 lines that change one fluent of 48400"
check
cat > "$work/d" <<'PDDL'
(define (domain check) (:predicates (broken ?lamp) (seen))
 (:action look :precondition (forall (?lamp) (not (broken ?lamp))) :effect (and (seen))))
PDDL
awk 'BEGIN {
    printf "(define (problem many) (:domain check) (:objects"
    for (i = 0; i < 10000; i++) printf " lamp%d", i
    print ") (:init) (:goal (seen)))"
}' > "$work/p"
awk 'BEGIN { for (i = 0; i < 1000; i++) print "0: (look)" }' > "$work/l"
echo "1000 lines that look at 10000 objects"
check
