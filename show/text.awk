# The page of `./wit show`: objects, memory in the order of addresses, unsafe stores. At most 80 columns.

# A row whose last column is folded under itself.
function row(front, rest,    word, n, i, line, width) {
    n = split(rest, word, " ")
    line = front
    width = length(front)
    for (i = 1; i <= n; i++) {
        if (length(line) + 1 + length(word[i]) > 80) {
            print line
            line = sprintf("%" width "s", "")
        }
        line = line " " word[i]
    }
    print line
}

function what(r) {
    if (kind[r] == "nothing") return "belongs to nothing"
    if (kind[r] == "guard") return "guard"
    if (kind[r] == "unused") return "unused"
    if (kind[r] == "header") return "header of the first block"
    if (kind[r] == "heap") return "heap, one free body at the start"
    if (kind[r] == "end") return "end slot"
    return "object " who[r] ", " sizes[who[r]] (sizes[who[r]] == 1 ? " byte" : " bytes")
}

END {
    if (objects == 0) print "it has no objects"
    else {
        print "object kind    size  class  color  start"
        for (g = 0; g < objects; g++)
            printf "%6s %-6s %5s %6s %6s %6s\n", g, kinds[g], sizes[g], classes[g], hues[g], starts[g]
    }
    map_memory()
    print "\n  from     to  bytes  color  what stands there"
    for (r = 0; r < rows; r++)
        printf "%6s %6s %6s %6s  %s\n", from[r], from[r] + bytes[r] - 1, bytes[r], color[r], what(r)
    list_stores()
    if (stores == 0) {
        print "\nit has no unsafe store"
        exit
    }
    print "\ninstruction store    color  " (is_routine ? "objects on its list" : "objects of that color")
    for (s = 0; s < stores; s++)
        row(sprintf("%11s %-8s %5s ", instruction[s], store[s], painted[s]), listed[s] == "" ? "none" : listed[s])
}
