# The page of `./wit show --html`: one file with a picture, memory by color on the left, the unsafe stores on
# the right with a line to each object they may write, and the stop of the run in red. NAME is the file's.

function escape(text) {
    gsub(/&/, "\\&amp;", text)
    gsub(/</, "\\&lt;", text)
    gsub(/>/, "\\&gt;", text)
    gsub(/"/, "\\&quot;", text)
    return text
}

# One of red (0), green (8) and blue (4) of a hue in degrees, as two hexadecimal digits; a light tone.
function tone(hue, shift,    k, m) {
    k = shift + hue / 30
    k -= 12 * int(k / 12)
    m = k - 3 < 9 - k ? k - 3 : 9 - k
    if (m > 1) m = 1
    if (m < -1) m = -1
    return sprintf("%02x", int(255 * (0.75 - 0.18 * m) + 0.5))
}

# Neighbouring numbers get far hues.
function paint(c,    hue) {
    if (c == "-") return "#ffffff"
    if (c == 0) return "#ececec"
    if (c == 1) return "#7a7a7a"
    hue = c * 137.508
    hue -= 360 * int(hue / 360)
    return "#" tone(hue, 0) tone(hue, 8) tone(hue, 4)
}

# Taller for more bytes, but not by much.
function height(size) { return 26 + int(6 * log(size / 8) / log(2)) }

function fill(r) {
    if (kind[r] == "guard") return "url(#guard)"
    if (kind[r] ~ /^(unused|heap|nothing)$/) return "#ffffff"
    return paint(color[r])
}

function label(r) {
    if (kind[r] == "object") return "object " who[r] (color[r] == 0 ? ", safe" : ", color " color[r])
    if (kind[r] == "header") return "header, color 1"
    if (kind[r] == "heap") return "heap"
    if (kind[r] == "end") return "end slot, color 1"
    if (kind[r] == "nothing") return "nothing"
    return kind[r]
}

function text(x, y, what, more) { print "<text x=\"" x "\" y=\"" y "\"" more ">" escape(what) "</text>" }

# What is written on a dark row is white.
function dark(r) { return kind[r] == "header" || kind[r] == "end" ? " fill=\"#ffffff\"" : "" }

function draw_memory(    r, tall) {
    y = TOP
    for (r = 0; r < rows; r++) {
        tall = height(bytes[r])
        printf "<rect x=\"%d\" y=\"%d\" width=\"%d\" height=\"%d\" fill=\"%s\" stroke=\"#666\"/>\n", LEFT, y, WIDE, tall, fill(r)
        text(LEFT - 8, y + 13, from[r], " text-anchor=\"end\" class=\"small\"")
        text(LEFT + 10, y + tall / 2 + 5, label(r), dark(r))
        text(LEFT + WIDE - 10, y + tall / 2 + 5, bytes[r] " bytes", " text-anchor=\"end\" class=\"small\"" dark(r))
        if (kind[r] == "object") middle[who[r]] = y + tall / 2
        if (kind[r] == "heap") heap_middle = y + tall / 2
        y += tall
    }
    bottom = y
}

# A store with a line to each object that it may write.
function draw_store(s,    n, i, g, object, aim, is_stop) {
    is_stop = !is_marked && reason != 0 && instruction[s] == stopped_at
    n = split(listed[s], object, " ")
    for (i = 1; i <= n; i++) {
        g = object[i]
        aim = g in middle ? middle[g] : heap_middle
        printf "<path d=\"M%d %d C%d %d %d %d %d %d\" fill=\"none\" stroke=\"%s\" stroke-width=\"%d\"/>\n", \
            RIGHT, y + 24, RIGHT - 60, y + 24, LEFT + WIDE + 60, aim, LEFT + WIDE, aim, \
            is_stop ? "#c00000" : (painted[s] == "-" ? "#999999" : paint(painted[s])), is_stop ? 3 : 2
    }
    box(store[s] " at instruction " instruction[s], \
        painted[s] == "-" ? "no check: may write anything" : "color " painted[s] ", may write " (n ? (n == 1 ? "object " : "objects ") shortened(listed[s]) : "nothing"), \
        paint(painted[s]), is_stop, "may write" (n ? listed[s] : " nothing"))
}

function shortened(list) {
    sub(/^ /, "", list)
    return length(list) > 30 ? substr(list, 1, 28) ".." : list
}

# A box with two lines, and a third one in red where the run stopped. What is cut shows under the pointer.
function box(head, below, hue, is_stop, whole) {
    printf "<rect x=\"%d\" y=\"%d\" width=\"360\" height=\"%d\" rx=\"4\" fill=\"%s\" stroke=\"%s\" stroke-width=\"%d\"><title>%s</title></rect>\n", \
        RIGHT, y, is_stop ? 70 : 48, hue, is_stop ? "#c00000" : "#666", is_stop ? 4 : 1, escape(whole)
    text(RIGHT + 12, y + 20, head, "")
    text(RIGHT + 12, y + 39, below, " class=\"small\"")
    if (is_stop) {
        text(RIGHT + 12, y + 60, "stopped here, " reason, " fill=\"#c00000\" font-weight=\"bold\"")
        is_marked = 1
        y += 22
    }
    y += 58
}

# Where the run ended, if that is at none of the stores.
function draw_end(    what) {
    if (is_marked) return
    what = stopped_at in name_at ? name_at[stopped_at] " at instruction " stopped_at : "behind the last instruction"
    if (reason == 0) {
        printf "<rect x=\"%d\" y=\"%d\" width=\"360\" height=\"48\" rx=\"4\" fill=\"#ffffff\" stroke=\"#207020\" stroke-width=\"4\"/>\n", RIGHT, y
        text(RIGHT + 12, y + 29, what ": finished here", " fill=\"#207020\" font-weight=\"bold\"")
        y += 58
    } else box(what, "", "#ffffff", 1, words)
}

END {
    name = ENVIRON["NAME"]
    TOP = 130; LEFT = 80; WIDE = 330; RIGHT = 560
    map_memory()
    list_stores()
    tall = TOP + 40
    for (r = 0; r < rows; r++) tall += height(bytes[r])
    if (TOP + 58 * (stores + 1) + 62 > tall) tall = TOP + 58 * (stores + 1) + 62
    print "<!DOCTYPE html>\n<html lang=\"en\">\n<head>\n<meta charset=\"utf-8\">"
    print "<title>" escape(name) "</title>\n</head>\n<body style=\"margin:0;background:#ffffff\">"
    printf "<svg xmlns=\"http://www.w3.org/2000/svg\" width=\"960\" height=\"%d\" viewBox=\"0 0 960 %d\" font-family=\"sans-serif\" font-size=\"15\">\n", tall, tall
    print "<style>.small { font-size: 13px; }</style>"
    print "<defs><pattern id=\"guard\" width=\"8\" height=\"8\" patternUnits=\"userSpaceOnUse\"><rect width=\"8\" height=\"8\" fill=\"#ffffff\"/><path d=\"M0 8L8 0\" stroke=\"#888\"/></pattern></defs>"
    printf "<rect width=\"960\" height=\"%d\" fill=\"#ffffff\"/>\n", tall
    text(LEFT, 36, name, " font-size=\"22\" font-weight=\"bold\"")
    text(LEFT, 64, (reason == 0 ? "finished" : "stopped with " reason) " after " steps (steps == 1 ? " step" : " steps") ":", \
        " font-weight=\"bold\" fill=\"" (reason == 0 ? "#207020" : "#c00000") "\"")
    text(LEFT, 84, words, " fill=\"" (reason == 0 ? "#207020" : "#c00000") "\"")
    text(LEFT, TOP - 12, "memory at the start, by address", " class=\"small\"")
    text(RIGHT, TOP - 12, stores ? "unsafe stores, and what each may write" : "it has no unsafe store", " class=\"small\"")
    draw_memory()
    y = TOP
    for (s = 0; s < stores; s++) draw_store(s)
    draw_end()
    print "</svg>\n</body>\n</html>"
}
