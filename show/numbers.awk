# Reads the bytes of a file that the proved reader has taken (as `od -An -v -tu1` prints them), and prints
# its sets and instructions, one to a line. With as=routine, version 1:
#     set NUMBER OBJECT..
#     routine POSITION NAME OPERAND..
# and with as=code, version 2:
#     code POSITION NAME OPERAND..
# It decides nothing: what is good is the reader's word, what is safe the instrumenter's.
function next_number(    n, power) {
    n = 0
    power = 1
    do {
        n += (bytes[at] % 128) * power
        power *= 128
    } while (bytes[at++] >= 128)
    return n
}

function operands(op, version) {
    if (op == 0) return 0
    if (op == 12 || op == 15 || op == 16 || op == 17) return 1
    if (op == 1 || op == 2 || op == 6 || op == 7 || op == 13 || op == 18 || op == 19) return 2
    if (op == 10 || op == 11) return version == 1 ? 3 : 2
    return 3
}

BEGIN { at = count = 0 }
{ for (i = 1; i <= NF; i++) bytes[count++] = $i }

END {
    split("END SET PLACE ADD SUB LESS LOAD8 LOAD32 PUT8 PUT32 WRITE8 WRITE32 JUMP JUMPIF ALLOC FREE IN OUT " \
        "CHECK8 CHECK32 CHECKPUT8 CHECKPUT32", name, " ")
    version = next_number()
    objects = next_number()
    for (i = 0; i < objects; i++) {
        if (next_number() == 0) next_number()
        if (version == 2) next_number()
    }
    sets = version == 1 ? next_number() : 0
    for (i = 0; i < sets; i++) {
        line = "set " i
        for (left = next_number(); left > 0; left--) line = line " " next_number()
        print line
    }
    lines = next_number()
    for (i = 0; i < lines; i++) {
        op = next_number()
        line = as " " i " " name[op + 1]
        for (left = operands(op, version); left > 0; left--) line = line " " next_number()
        print line
    }
}
