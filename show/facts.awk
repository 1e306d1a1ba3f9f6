# What text.awk and page.awk share: takes in the facts that `./wit show` gathers, and works out the rows of
# memory and of unsafe stores.
#
# memory: from[r], bytes[r], color[r], kind[r] (nothing, object, guard, unused, header, heap, end), who[r].
# stores: instruction[s], store[s] (its name), painted[s] (the color of its check), listed[s] (its objects);
# name_at[p] is the name of the instruction at place p. A run: reason, stopped_at, steps, words.

function add(first, size, hue, what, object) {
    if (size <= 0) return
    from[rows] = first
    bytes[rows] = size
    color[rows] = hue
    kind[rows] = what
    who[rows++] = object
}

function extent(size) { return int((size + 7) / 8) * 8 }

# The objects of a color, with a blank before each.
function of_color(hue,    g, all) {
    all = ""
    for (g = 0; g < objects; g++) if (hues[g] == hue) all = all " " g
    return all
}

function map_memory(    g, at, is_unsafe, last) {
    rows = 0
    add(0, 8, 0, "nothing", "")
    at = 8
    for (is_unsafe = 0; is_unsafe <= 1; is_unsafe++) {
        for (g = 0; g < objects; g++) {
            if (starts[g] == "-" || (hues[g] != 0) != is_unsafe) continue
            add(starts[g], extent(sizes[g]), hues[g], "object", g)
            at = starts[g] + extent(sizes[g])
            if (is_unsafe) {
                add(at, 8, 0, "guard", "")
                at += 8
            }
        }
        if (!is_unsafe) {
            add(at, 8, 0, "guard", "")
            at += 8
        }
    }
    add(at, 28672 - at, 0, "unused", "")
    add(28672, 8, 1, "header", "")
    add(28680, 28656, 0, "heap", "")
    add(57336, 8, 1, "end", "")
}

# An unsafe store is one that stands behind its check.
function list_stores(    i, place, is_checked, own) {
    stores = 0
    place = 0
    is_checked = 0
    for (i = 0; i < lines; i++) {
        split(code[i], part, " ")
        if (part[1] ~ /^CHECK/) {
            if (is_checked) add_stray(place)
            is_checked = 1
            held = part[1] ~ /PUT/ ? part[4] : part[3]
            continue
        }
        name_at[place] = part[1]
        if (part[1] ~ /^(PUT|WRITE)/ && (is_checked || part[1] ~ /^WRITE/)) {
            instruction[stores] = place
            store[stores] = part[1]
            painted[stores] = is_checked ? held : "-"
            if (part[1] ~ /^PUT/) own = " " part[2]
            else if (is_routine) own = members[set_of[place]]
            else own = is_checked ? of_color(held) : " any"
            listed[stores++] = own
        } else if (is_checked) add_stray(place)
        is_checked = 0
        place++
    }
    if (is_checked) add_stray(place)
}

# A check of code by others that has no store behind it.
function add_stray(place) {
    instruction[stores] = place
    store[stores] = "check"
    painted[stores] = held
    listed[stores++] = of_color(held)
}

BEGIN { objects = lines = 0 }
$1 == "object" {
    kinds[objects] = $3
    sizes[objects] = $4
    classes[objects] = $5
    hues[objects] = $6
    starts[objects++] = $7
}
$1 == "set" {
    n = $2
    $1 = $2 = ""
    sub(/^ +/, " ")
    members[n] = $0
}
$1 == "routine" {
    is_routine = 1
    if ($3 ~ /^WRITE/) set_of[$2] = $6
}
$1 == "code" {
    n = $2
    $1 = $2 = ""
    sub(/^ +/, "")
    code[n] = $0
    lines = n + 1
}
$1 == "run" {
    reason = $2
    stopped_at = $3
    steps = $4
}
$1 == "words" {
    $1 = ""
    words = substr($0, 2)
}
