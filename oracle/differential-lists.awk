# What demand 3 says of every list of calls, held to the answers in the file `answers` to the lines of `oracle script lists`: after each call the current
# arena is shown, by `chains` last, and `check` holds what is shown to what was shown before. `seen` has the last answers of each arena, `now` those after the
# call. After each call the claims are also tried on the arena as it stands, between `save` and `restore`: `owed` says which are to come before the next call.
# Prints numbers and what they count; or the first line whose answer breaks a claim, with status 1.

BEGIN { begin() }

# digits are text here, not numbers
{ if ((getline answer <answers) < 1) fail("no answer"); answer = answer "" }

$1 == "" { if (lists++) ended(); calls = sets = 0; next }
$1 == "write" { written = answer; next }
$1 == "erasable" { erasable = answer; if (erasable != largest()) fail(erasable " is erasable"); owe(); next }
$1 == "save" || $1 == "restore" { if (answer != "ok" || trial != ($1 == "save" ? "" : "save")) fail($1 " is out of place"); trial = $1; next }
$1 == "dump" && trial == "restore" { if (answer != seen[arena, $1]) fail("another graph is restored"); trial = ""; next }
$1 == "marks" || $1 == "list" || $1 == "compares" || $1 == "dump" { now[$1] = answer; next }
$1 == "chains" { now[$1] = answer; if (trial == "save") tried(); else check(); next }
$1 == "due" || $1 == "introduced" { introduction($1, $2); next }
{
    if (trial != "save") settled()
    split("", now)
    call = $1; set = hexadecimal = $2 ""; value = $3 ""; result = answer
    setter = call == "mark" || call == "spec" || call == "specs" || call == "restrict"
    refused = answer == "bad line" || answer ~ /^refused/
    if (trial == "" && call != "swap" && call != "new") count()
}

END {
    if (!failed) { settled(); ended() }
    if (failed) exit 1
    found["lists"] = lists
    for (what in found) print found[what], what
}

function ended() {
    if (calls < 5 || calls > 30) fail("the list before has " calls " calls")
    if (!sets) fail("the list before sets nothing of a node")
}

function fail(text) { print "line " NR ": " text; failed = 1; exit 1 }

# both arenas are empty
function begin(    r) {
    arena = 0
    for (r = 0; r < 2; r++) {
        seen[r, "marks"] = "0 0 0"
        seen[r, "list"] = seen[r, "compares"] = "refused 3"
        seen[r, "dump"] = seen[r, "chains"] = ""
        erased[r] = 0
    }
}

function count() {
    calls++
    sets += setter
    found[call] += !refused
    if (answer !~ /^refused/) return
    found["refused-" substr(answer, 9)]++
    found[call "-refused"]++
    found[call "-refused-" substr(answer, 9)]++
}

function check(    from, word) {
    from = arena
    if (setter) settable()
    if (call == "new") begin()
    if (!refused && (call == "swap" || call == "seed")) arena = !arena
    if (refused || call == "swap" || call == "new") same(arena, "marks list compares dump chains", call " is refused or writes nothing")
    else if (call == "erase") erasing()
    else if (call == "order") ordering()
    else if (setter) setting()
    else if (call == "deepen" || call == "seed") found["finalized-" call] += deepening(from)
    if (fresh && call == "order" && refused) fail("what was ordered has no order afresh")
    if (!refused && call == "seed") seeding(from)
    if (!refused && (call == "read" || call == "seed")) erased[arena] = 0
    listed()
    fresh = !refused && call == "read" && hexadecimal == written && seen[arena, "marks"] ~ /^1/
    old_list = seen[arena, "list"]; old_chains = seen[arena, "chains"]
    for (word in now) seen[arena, word] = now[word]
    owed["erasable"] = 1
}

# what is erasable is to be erased in a trial, and a finalized graph deepened
function owe() {
    owed["erasable"] = 0
    owed["erase"] = erasable ~ /1/
    owed["deepen"] = seen[arena, "marks"] ~ /^. 1/
}

# all is tried that is to be tried after a call, and the graph is restored
function settled(    what) {
    if (trial != "") fail("the graph is not restored")
    for (what in owed) if (owed[what]) fail("before this call there is no " what)
}

# the claims in a trial; `seen` stays, since the graph is restored
function tried() {
    if (!owed[call]) fail(call " is not to be tried here")
    owed[call] = 0
    if (call == "erase") {
        if (set != erasable) fail("another set is tried")
        kept()
        found["erasable-trials"]++
        found["erasable-trials-ordered"] += now["marks"] ~ /^1/
    } else if (refused) {
        if (result != "refused 7") fail("deepening is " result)
        same(arena, "marks list compares chains", "deepening is " result)
        found["deepen-trials-refused"]++
    } else found["deepen-trials"] += deepening(arena)
}

# these words are answered as they were in that arena
function same(r, words, why,    n, word) {
    for (n = split(words, word, " "); n > 0; n--) if (now[word[n]] != seen[r, word[n]]) fail(word[n] " has changed: " why)
}

# "its list has each node once, and of any two the earlier is the stronger"
function listed(    n, node, row, i, j) {
    if (now["marks"] ~ /^0/) {
        if (now["list"] != "refused " (now["dump"] == "" ? 3 : 10)) fail("a list of a graph that is not ordered")
        return
    }
    n = split(now["list"], node, " ")
    if (n != split(now["compares"], row, " ")) fail("a list of " n " nodes")
    for (i = 1; i <= n; i++) for (j = i; j <= n; j++) {
        if (substr(row[node[i] + 1], node[j] + 1, 1) != (i == j ? "E" : "L")) fail("the list has " node[i] " before " node[j])
    }
    found["ordered"]++
}

# "every node that went was marked, none was parent or origin of a kept one, and every set of marked nodes that no node outside it had as parent or origin
# lies within what went": that set of the current graph
function largest(    n, at, record, field, path, marked, stays, parent, origin, bits) {
    n = split(seen[arena, "dump"], record, ";")
    for (at = 0; at < n; at++) {
        split(record[at + 1], field, ",")
        parent[at] = field[5]; origin[at] = field[6]; path[at] = field[12]
        marked[at] = at && int(field[2] / 2) % 2 && !field[11] && prims(path[field[5]]) > field[7]
    }
    for (at = n - 1; at >= 0; at--) {
        if (!marked[at]) stays[at] = 1
        if (stays[at]) stays[parent[at]] = stays[origin[at]] = 1
        bits = (stays[at] ? "0" : "1") bits
    }
    return n ? bits : "refused 3"
}
function prims(path) {
    gsub(/[{][^}]*[}]/, "/", path)
    return gsub(/[A-Za-z0-9_]+/, "", path)
}

function erasing(    went) {
    went = kept()
    if (went) erased[arena] = 1
    if (set != erasable) { found["other-sets"] += went > 0; return }
    found["erasable-sets"] += went > 0
    found["erasable-sets-ordered"] += went > 0 && now["marks"] ~ /^1/
}

# "the rest stand as before, any two of them compare as before, and, where the graph was ordered, its list is the old one without what went", which holds of
# every set that is accepted; answers how many went
function kept(    n, at, other, record, field, chain, row, left, dump, chains, compares, cells, list) {
    n = split(seen[arena, "dump"], record, ";")
    left = 0
    for (at = 0; at < n; at++) { goes[at] = substr(set, at + 1, 1) == "1"; number[at] = left; left += !goes[at] }
    number["-"] = "-"; goes["-"] = 0
    if (result != left "") fail(result " nodes are said to be kept")
    split(seen[arena, "chains"], chain, ";"); split(seen[arena, "compares"], row, " ")
    for (at = 0; at < n; at++) if (!goes[at]) {
        split(record[at + 1], field, ",")
        if (goes[field[5]] || goes[field[6]]) fail("the parent or origin of a kept node went")
        field[5] = number[field[5]]; field[6] = number[field[6]]
        dump = dump (at ? ";" : "") field[1]
        for (other = 2; other <= 12; other++) dump = dump "," field[other]
        chains = chains (at ? ";" : "") renumbered(chain[at + 1], ",")
        cells = ""
        for (other = 0; other < n; other++) if (!goes[other]) cells = cells substr(row[at + 1], other + 1, 1)
        compares = compares (at ? " " : "") cells
    }
    if (now["dump"] != dump) fail("a kept node has changed")
    if (now["chains"] != chains) fail("the chains have lost more than what went")
    if (now["compares"] != compares) fail("two kept nodes do not compare as before")
    if (now["marks"] != seen[arena, "marks"]) fail("erasing has changed the marks")
    list = now["marks"] ~ /^1/ ? renumbered(seen[arena, "list"], " ") : seen[arena, "list"]
    if (now["list"] != list) fail("the list is not the old one without what went")
    return n - left
}

# the nodes in `text` that stay, by their new numbers
function renumbered(text, between,    n, i, old, left, joint) {
    n = split(text, old, between)
    for (i = 1; i <= n; i++) if (!goes[old[i]]) { left = left joint number[old[i]]; joint = between }
    return left
}

# "ordering afresh changes nothing", neither in the ordered graph itself nor, once it is read back, in a finalized one
function ordering() {
    if (seen[arena, "marks"] ~ /^1/) { same(arena, "marks list compares dump chains", "ordered again"); found["ordered-again"]++ }
    if (fresh) {
        if (now["list"] != old_list || now["chains"] != old_chains) fail("ordered afresh, the list is another")
        found["ordered-afresh"]++
    }
}

# "If instead the graph is finalized and is deepened by a child name, every pair compares as before"; another loses its order. Answers whether it was finalized
function deepening(from) {
    if (seen[from, "marks"] == "1 1 0") {
        same(from, "marks list compares chains", "a finalized graph is deepened")
        return 1
    }
    same(from, "chains", "deepened")
    if (now["marks"] != "0 0 " substr(seen[from, "marks"], 5)) fail("a graph that is not finalized stays ordered")
    found["ordered-shallow-" call] += seen[from, "marks"] == "1 0 1"
    return 0
}

# a setter is refused where there is no such node, or where CULLED is marked on a Root arc, or a flag past 7; and only there
function settable(    n, record, field, expected) {
    n = split(seen[arena, "dump"], record, ";")
    split(record[set + 1], field, ",")
    expected = "ok"
    if (call == "mark" && (value + 0 > 7 || int(value / 2) % 2 && field[1] == 0)) expected = "refused 6"
    if (set + 0 >= n) expected = "refused 4"
    if (!n) expected = "refused 3"
    if (result != expected) fail(call " is " result ", not " expected)
    found["marked-culled"] += call == "mark" && !refused && int(value / 2) % 2 && !(int(field[2] / 2) % 2)
}

# fields of one node are set: the rest of its record, the other records, child lists, comparisons, marks and list stay
function setting(    n, at, other, record, field, bit, dump) {
    same(arena, "marks list compares chains", call " sets fields of one node")
    n = split(seen[arena, "dump"], record, ";")
    split(record[set + 1], field, ",")
    if (call == "mark") { for (bit = 1; bit < 8; bit *= 2) if (int(value / bit) % 2 && !(int(field[2] / bit) % 2)) field[2] += bit }
    else if (call == "restrict") field[9] = value
    else { field[10] = call == "spec" && value != "-" ? value : 0; field[11] = call == "spec" ? value != "-" : value }
    record[set + 1] = field[1]
    for (other = 2; other <= 12; other++) record[set + 1] = record[set + 1] "," field[other]
    dump = record[1]
    for (at = 2; at <= n; at++) dump = dump ";" record[at]
    if (now["dump"] != dump) fail(call " has set something else")
    found["set-" (now["marks"] ~ /^. 1/ ? "finalized" : now["marks"] ~ /^1/ ? "ordered-shallow" : "unordered")]++
}

# of a node of the current graph: is it due to an ancestor, and its parent's path as far as its depth; of node 0 the root
function introduction(word, node,    n, record, field, parent, due) {
    n = split(seen[arena, "dump"], record, ";")
    found[word]++
    if (node + 0 >= n) { if (answer != "refused " (n ? 4 : 3)) fail(word " is " answer); return }
    split(record[node + 1], field, ",")
    split(record[field[5] + 1], parent, ",")
    due = node > 0 && prims(parent[12]) > field[7]
    found[word "-" (due ? "ancestor" : "here")]++
    if (word == "due") { if (answer != due "") fail("due is " answer); return }
    if (node == 0 && answer != "/" || node > 0 && !due && answer != parent[12]) fail("introduced by " answer)
    if (due && (prims(answer) != field[7] || index(parent[12], answer) != 1)) fail("introduced by " answer)
}

# the arena that is filled may have held anything
function seeding(from) {
    found["seeded-over-a-graph"] += seen[arena, "dump"] != ""
    found["seeded-over-what-was-erased-from"] += erased[arena]
    found["seeded-from-what-was-erased-from"] += erased[from]
}
