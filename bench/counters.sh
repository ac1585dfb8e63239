# Sources with counters, and the queries on them for z3: for scripts that have a folder `$work`.

# `$1` counters.
counters() {
    awk -v count="$1" 'BEGIN {
        printf "node main(t : bool) returns ("
        for (i = 1; i <= count; i++) printf "%sx%d", (i > 1 ? ", " : ""), i
        print " : int);\nlet"
        for (i = 1; i <= count; i++) {
            c = 1 + (i * i) % 5
            printf "  x%d = 0 -> if t and pre x%d < %d then pre x%d + 1 else pre x%d;\n", i, i, c, i, i
            printf "  --%%PROPERTY \"p%d\" x%d <= %d;\n  --%%PROPERTY \"q%d\" x%d < %d;\n", i, i, c, i, i, c
        }
        print "tel"
    }'
}

# The queries of both engines on counters, in SMT-LIB, as they are asked up to the depth `$2`: each has the states of all
# counters. `$1` counters stop as those above; with the word `late` there is one that never stops, and the property that
# it stays below 200. With a third word each path is said once and grows by a state from query to query, so that what is
# known of it can be kept; else each query says its own.
queries() {
    awk -v what="$1" -v depth="$2" -v kept="${3-}" '
    function limit(i) { return late ? 200 : 1 + (i * i) % 5 }
    function after(i, s) {
        x = "x" i "_" (s - 1)
        if (late) return "(+ " x " 1)"
        return "(ite (and t_" s " (< " x " " limit(i) ")) (+ " x " 1) " x ")"
    }
    function state(s,   i) {
        for (i = 1; i <= count; i++) print "(assert (= x" i "_" s " " after(i, s) "))"
    }
    function path(to,   s) { for (s = 1; s <= to; s++) state(s) }
    function first(   i) { for (i = 1; i <= count; i++) print "(assert (= x" i "_0 0))" }
    function holds(i, s, op) { return "(" op " x" i "_" s " " limit(i) ")" }
    function against(i, s, op) { print "(push)\n(assert (not " holds(i, s, op) "))\n(check-sat)\n(pop)" }
    function bounded(i, from, to, op,   s) {
        print "(push)"
        first()
        path(from)
        for (s = from; s <= to; s++) {
            if (s > from) state(s)
            against(i, s, op)
        }
        print "(pop)"
    }
    function steps(i, from, to, op,   k, s) {
        print "(push)"
        path(from - 1)
        for (s = 0; s < from - 1; s++) print "(assert " holds(i, s, op) ")"
        for (k = from; k <= to; k++) {
            state(k)
            print "(assert " holds(i, k - 1, op) ")"
            against(i, k, op)
        }
        print "(pop)"
    }
    BEGIN {
        late = what == "late"
        count = late ? 1 : what
        most = late ? 200 : depth < 5 ? depth : 5
        print "(set-logic QF_LIA)"
        for (s = 0; s <= most; s++) {
            print "(declare-const t_" s " Bool)"
            for (i = 1; i <= count; i++) print "(declare-const x" i "_" s " Int)"
        }
        for (i = 1; i <= count; i++) {
            if (!late) { bounded(i, 0, 0, "<="); steps(i, 1, 1, "<=") }
            last = limit(i) < depth ? limit(i) : depth
            if (kept) { bounded(i, 0, last, "<"); steps(i, 1, last, "<"); continue }
            for (s = 0; s <= last; s++) bounded(i, s, s, "<")
            for (k = 1; k <= last; k++) steps(i, k, k, "<")
        }
    }'
}

# The queries of both engines on a register of `$1` flags of which each takes the value of the next, none of them true at
# first: whether the first one is true at an instant below `$1`, or behind up to as many states in which it is not. A
# second word as above.
register_queries() {
    awk -v count="$1" -v kept="${2-}" '
    function state(s,   i) {
        for (i = 0; i < count; i++) print "(assert (= x" i "_" s " x" (i + 1) % count "_" (s - 1) "))"
    }
    function path(to,   s) { for (s = 1; s <= to; s++) state(s) }
    function bounded(from, to,   i, s) {
        print "(push)"
        for (i = 0; i < count; i++) print "(assert (not x" i "_0))"
        path(from)
        for (s = from; s <= to; s++) {
            if (s > from) state(s)
            print "(push)\n(assert x0_" s ")\n(check-sat)\n(pop)"
        }
        print "(pop)"
    }
    function steps(from, to,   k, s) {
        print "(push)"
        path(from - 1)
        for (s = 0; s < from - 1; s++) print "(assert (not x0_" s "))"
        for (k = from; k <= to; k++) {
            state(k)
            print "(assert (not x0_" k - 1 "))"
            print "(push)\n(assert x0_" k ")\n(check-sat)\n(pop)"
        }
        print "(pop)"
    }
    BEGIN {
        print "(set-logic QF_UF)"
        for (s = 0; s <= count; s++)
            for (i = 0; i < count; i++) print "(declare-const x" i "_" s " Bool)"
        if (kept) { bounded(0, count - 1); steps(1, count); exit }
        for (s = 0; s < count; s++) bounded(s, s)
        for (s = 1; s <= count; s++) steps(s, s)
    }'
}

# The seconds that z3 takes for the queries that a command prints; a dash where it is not there.
rival() {
    command -v z3 >/dev/null || { echo -; return; }
    "$@" >"$work/queries"
    from=$(date +%s.%N)
    z3 "$work/queries" >"$work/answers"
    echo "$from $(date +%s.%N)" | awk '{ printf "%.2f\n", $2 - $1 }'
}
