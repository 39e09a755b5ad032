# table.awk: document 01's places and its step table, with document 02's old edition and second read, as the views know
# them. In order: names and phases, a step as a list of writes, the acts of the queue lock, those of the old edition.
#
# now[NAME, p] is a cell of processor p's row as the run has it; now["L", LOCK] is L. A step writes nothing at once:
# put() notes what it would write, so that a line of the log can first be held against it. `did` says what it does.

BEGIN {
    LOCK = "lock"
    RELEASED = 0; LOCKED = 1; PREEMPTED = 2; R_P = 3
    locked_name[RELEASED] = "Released"; locked_name[LOCKED] = "Locked"
    locked_name[PREEMPTED] = "Preempted"; locked_name[R_P] = "R_P"
    PLAIN = 0; DRAWN = 1; GUARDED = 2; OLD = 3
    # the drawn edition carries no claim of order, and the old one has no queue whose order it could keep
    ordered[PLAIN] = 1; ordered[DRAWN] = 0; ordered[GUARDED] = 1; ordered[OLD] = 0
    queued[PLAIN] = queued[DRAWN] = queued[GUARDED] = 1; queued[OLD] = 0
    for (k = PLAIN; k <= GUARDED; k++) wait_begins(k, "join", "joins", "joined", "joins")
    wait_begins(OLD, "first try", "first tries", "first tried", "makes its first try")

    REST = 0; GATE = 1; CLEAR = 2; SWAP = 3; ARM = 4; LINK = 5; CLAIM = 6; SPIN = 7; SETTLE = 8; INSIDE = 9; POLL = 10
    SERVICE = 11; BACK = 12; REGAIN = 13; LOOK = 14; CLOSE = 15; AWAIT = 16; HAND = 17; FENCE = 18; PARK = 19; PEEK = 20
    TAKE = 21; LIFT = 22; TRY = 23; OLD_POLL = 24; OLD_SERVICE = 25; FREE = 26; REREAD = 27; LOST = 28
    PLACES = split("rest gate clear swap arm link claim spin settle inside poll service back regain look close await " \
        "hand fence park peek take lift try poll service free reread lost", named, " ")
    for (k = 0; k < PLACES; k++) {
        place_name[k] = named[k + 1]
        phase[k] = phase_of(k)
    }
    split("0 2 3 4 5 7 9 14 15 16 17", list, " ")
    for (k in list) has[PLAIN, list[k]] = has[DRAWN, list[k]] = 1
    split("6 8 10 11 12 13 19 20 21 27 28", list, " ")
    for (k in list) has[DRAWN, list[k]] = 1
    for (k = REST; k <= LIFT; k++) has[GUARDED, k] = 1
    split("0 9 23 24 25 26", list, " ")
    for (k in list) has[OLD, list[k]] = 1
    # a step from the one to the other takes an interrupt
    service_of[POLL] = SERVICE; service_of[OLD_POLL] = OLD_SERVICE
}

# What a wait begins with in edition e, in words.
function wait_begins(e, noun, nouns, past, verb) {
    start_noun[e] = noun
    start_nouns[e] = nouns
    start_past[e] = past
    start_verb[e] = verb
}

function phase_of(k) {
    if (k == REST) return "at rest"
    if (k <= SWAP) return "on the way"
    if (k == INSIDE) return "inside"
    if (k >= SERVICE && k <= REGAIN || k == OLD_SERVICE) return "in service"
    if (k == TRY || k == OLD_POLL) return "trying"
    if (k == FREE) return "freeing"
    if (k == LOST) return "lost"
    return k <= POLL ? "waiting" : "handing on"
}

# ---- a step as a list of writes

function put(name, q, value) {
    writes++
    put_name[writes] = name
    put_row[writes] = q
    put_value[writes] = value
}

# A cell as it is after the writes noted so far.
function after(name, q,    k) {
    for (k = writes; k >= 1; k--)
        if (put_name[k] == name && put_row[k] == q) return put_value[k]
    return now[name, q]
}

function carry_out(    k) {
    for (k = 1; k <= writes; k++) now[put_name[k], put_row[k]] = put_value[k]
}

# The step of processor p.
function step(p,    k) {
    writes = 0
    did = pass = ""
    k = now["place", p]
    if (k >= TRY && k <= FREE) try_for(p, k, now["L", LOCK])
    else if (phase[k] == "at rest" || phase[k] == "on the way") way_in(p, k)
    else if (phase[k] == "waiting") wait(p, k, now["pred", p])
    else if (phase[k] == "in service") serve(p, k)
    else hand_on(p, k, now["succ", p])
}

function raise(p) {
    writes = 0
    did = now["flag", p] ? "raised already" : ""
    pass = ""
    put("flag", p, 1)
}

function go(p, to, words) {
    put("place", p, to)
    did = words
}

# The lock goes from one to another; the picture draws it.
function passes(how, from, to) {
    pass = how
    giver = from
    taker = to
}

# ---- the acts of the queue lock; rest and inside are in every edition

# Where a processor goes that wants the lock.
function door() {
    return edition == GUARDED ? GATE : edition == OLD ? TRY : CLEAR
}

function way_in(p, k,    last) {
    if (k == REST && now["flag", p]) { put("flag", p, 0); go(p, REST, "clears the flag") }
    else if (k == REST) go(p, door())
    else if (k == GATE && now["guard", p]) go(p, GATE, "is held at the gate")
    else if (k == GATE) go(p, CLEAR)
    else if (k == CLEAR) { put("next", p, NONE); go(p, SWAP) }
    else {
        last = now["L", LOCK]
        put("pred", p, last)
        put("L", LOCK, p)
        if (last == NONE) go(p, INSIDE, "joins and enters")
        else go(p, ARM, "joins behind " last)
    }
}

function wait(p, k, before) {
    if (k == ARM) { put("locked", p, LOCKED); go(p, LINK) }
    else if (k == LINK) { put("next", before, p); go(p, edition == PLAIN ? SPIN : CLAIM, "links to " before) }
    else if (k == CLAIM && now["locked", before] == R_P) {
        put("locked", before, RELEASED)
        passes("claimed", before, p)
        go(p, SETTLE, "claims the lock parked on " before)
    }
    else if (k == CLAIM) go(p, SPIN)
    else if (k == SPIN && now["locked", p] == RELEASED) go(p, INSIDE, "enters")
    else if (k == SPIN) go(p, edition == PLAIN ? SPIN : POLL)
    else if (k == SETTLE) { put("locked", p, RELEASED); go(p, INSIDE, "enters") }
    else if (now["flag", p] && now["locked", p] == LOCKED) {
        put("locked", p, PREEMPTED)
        put("flag", p, 0)
        go(p, SERVICE, "takes an interrupt")
    }
    else go(p, SPIN, now["flag", p] ? "keeps the flag: it is not Locked any more" : "")
}

function serve(p, k) {
    if (k == SERVICE) go(p, BACK)
    else if (k == BACK && now["locked", p] == PREEMPTED) {
        put("locked", p, LOCKED)
        go(p, SPIN, "comes back in time (found Preempted)")
    }
    else if (k == BACK) go(p, REGAIN)
    else if (now["locked", p] == R_P) {
        put("locked", p, RELEASED)
        go(p, SPIN, "comes back in time (found R_P)")
    }
    else go(p, door(), "has lost its place")
}

function hand_on(p, k, behind,    found) {
    found = now["locked", behind]
    if (k == INSIDE) go(p, edition == OLD ? FREE : LOOK, "leaves")
    else if (k == LOOK || k == AWAIT) look(p, k, now["next", p])
    else if (k == CLOSE && now["L", LOCK] == p) { put("L", LOCK, NONE); go(p, REST, "closes the queue") }
    else if (k == CLOSE) go(p, AWAIT)
    else if (k == HAND && (edition == PLAIN || found == LOCKED)) {
        put("locked", behind, RELEASED)
        passes("handed", p, behind)
        go(p, REST, "hands to " behind)
    }
    else if (k == HAND) go(p, edition == DRAWN ? PARK : FENCE, finds(behind))
    else if (k == FENCE) { put("guard", behind, 1); go(p, PARK, "fences " behind) }
    else if (k == PARK && found == PREEMPTED) {
        put("locked", behind, R_P)
        passes("parked", p, behind)
        go(p, PEEK, "parks the lock on " behind)
    }
    else if (k == PARK) lift_next(p, behind, finds(behind))
    else if (k == PEEK) peek(p, behind, now["next", behind])
    else if (k == TAKE && found == R_P) {
        put("locked", behind, RELEASED)
        passes("taken back", behind, p)
        # the drawn edition does not go by what it peeked: it reads once more
        go(p, edition == DRAWN ? REREAD : LIFT, "takes it back from " behind)
    }
    else if (k == TAKE) lift_next(p, NONE, "takes nothing back: " finds(behind))
    else if (k == REREAD) reread(p, behind, now["nx", p], now["next", behind])
    else if (k == LOST) go(p, LOST, "does nothing: the lock is lost")
    else { put("guard", behind, 0); on_or_out(p, now["nx", p], "lifts the guard of " behind) }
}

function finds(q) {
    return "finds " q " " locked_name[now["locked", q]]
}

function look(p, k, behind) {
    if (behind != NONE) { put("succ", p, behind); go(p, HAND) }
    else go(p, k == LOOK ? CLOSE : AWAIT, k == AWAIT ? "waits for a link" : "")
}

function peek(p, behind, second) {
    if (second == NONE) lift_next(p, NONE, "sees no one behind " behind)
    else { put("nx", p, second); go(p, TAKE, "sees " second " behind " behind) }
}

# The one peeked need not stand behind succ any more, and nobody need: then there is nobody to hand the lock to.
function reread(p, behind, peeked, second,    change) {
    change = second == peeked ? " still" : ", not " peeked " any more"
    put("nx", p, second)
    if (second == NONE) go(p, LOST, "sees no one behind " behind " any more: the lock is lost")
    else on_or_out(p, second, "sees " second " behind " behind change)
}

# To place 22 with that nx. The drawn edition has no place 22 and makes its choice in the same step.
function lift_next(p, second, words) {
    put("nx", p, second)
    if (edition == DRAWN) on_or_out(p, second, words)
    else go(p, LIFT, words)
}

function on_or_out(p, second, words) {
    if (second == NONE) go(p, REST, words)
    else { put("succ", p, second); go(p, HAND, words) }
}

# ---- the acts of the old edition

# L has who holds the lock.
function try_for(p, k, holder,    tries) {
    tries = first_try(p) ? start_verb[edition] : "tries again"
    if (k == TRY && holder == NONE) { put("L", LOCK, p); go(p, INSIDE, tries " and enters") }
    else if (k == TRY) go(p, OLD_POLL, tries "; " holder " has the lock")
    else if (k == OLD_POLL && now["flag", p]) { put("flag", p, 0); go(p, OLD_SERVICE, "takes an interrupt") }
    else if (k == OLD_POLL) go(p, TRY)
    else if (k == OLD_SERVICE) go(p, TRY, "comes back")
    else { put("L", LOCK, NONE); go(p, REST, "frees the lock") }
}
