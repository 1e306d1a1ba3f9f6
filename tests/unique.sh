#!/bin/bash
# The statements of crates/unique are about the contracts as they stand: for each public function of a library
# crate there is one, proved, with the function's parameters and with its `ensures` clauses word for word.
set -u
export LC_ALL=C
cd "$(dirname "$0")/.." || exit 2
# shellcheck source=tests/parts/lib.sh
. tests/parts/lib.sh
stated=crates/unique/specs/Once.antt
proved=crates/unique/proofs/Once.antt

# A line for each public function of a source: name, the form that its statement has, parameters, and what it has to
# promise. The answer comes first, as `result`, then each lent buffer's name with a mark for what it holds
# afterwards; clauses are joined by a product.
contracts() { # FILE
    awk '
        function between(text, left, right,   at) {
            at = index(text, left)
            if (!at) return ""
            text = substr(text, at + length(left))
            return substr(text, 1, index(text, right) - 1)
        }
        # What stands in the braces that a text begins with, braces within it too.
        function braced(text,   at, depth, c) {
            for (at = 1; at <= length(text); at++) {
                c = substr(text, at, 1)
                if (c == "{") depth++
                if (c == "}" && --depth == 0) return substr(text, 2, at - 2)
            }
            return ""
        }
        # The functions of a public trait are public, and have no body there.
        /^pub trait / { trait = 1 }
        /^}/ { trait = 0 }
        /^ *pub (extern "C" )?fn / || (trait && /^ *fn /) { reading = 1; head = "" }
        reading && /^ *\{ *$/ { reading = 0; tell() }
        reading { head = head " " $0 }
        reading && trait && /;$/ { reading = 0; tell() }
        function tell(   name, list, n, i, part, names, bound, many, clauses, clause, promise, text) {
            name = head
            sub(/^ *(pub )?(extern "C" )?fn /, "", name)
            sub(/[^a-z0-9_].*/, "", name)
            text = head
            sub(/ ensures .*/, "", text)
            if (text ~ /->/) { bound = "result"; many++ }
            # a width is a type, of which clauses name the number of bytes
            if (trait || head ~ /<W: Width>/) names = "bytes"
            list = between(head, "(", ")")
            n = split(list, part, ",")
            for (i = 1; i <= n; i++) {
                text = part[i]
                if (text ~ /^ *self *$/) text = "self:"
                if (text !~ /:/) continue
                sub(/:.*/, "", text)
                gsub(/ /, "", text)
                names = names (names == "" ? "" : " ") text
                if (part[i] ~ /&(.[a-z]+ )?mut /) { bound = bound (bound == "" ? "" : ", ") text "\047"; many++ }
            }
            text = head
            while (match(text, / ensures\*? [a-z0-9_ ]*\{/)) {
                text = substr(text, RSTART + RLENGTH - 1)
                clause = braced(text)
                text = substr(text, length(clause) + 2)
                gsub(/^ +| +$/, "", clause)
                promise = promise (clauses++ ? ") × (" : "") clause
            }
            if (clauses > 1) promise = "(" promise ")"
            if (many > 1) bound = "(" bound ")"
            # what a reader gives comes from outside: its statement speaks of readings that succeed, of known bytes
            print name "|" (head ~ /<R: Read>/ ? "IsSome input → Alike" : "Once") "|" names "|λ " bound ". " promise
        }' "$1" |
        sed -E "s/W\.bytes/bytes/g; s/\(R\.remaining ([a-z.]+)\)/\1/g
            s/(^|[ (])([a-z0-9_]+)\.new/\1\2'/g; s/(^|[ (])([a-z0-9_]+)\.(now|old)/\1\2/g; s/([a-z0-9_]+)\.entry/\1/g
            s/  +/ /g"
}

# What stands in a statement: its form with what it asks, its parameters, and its promise, with the answer as
# `result`.
statement() { # NAME
    awk -v name="$1" '
        BEGIN { RS = "" }
        index($0, "abbrev pub " name " : Type 0\n" name " =") == 1 {
            gsub(/[ \n]+/, " ")
            sub(/^.* : Type 0 [^ ]+ = /, "")
            form = index($0, "→ Alike ") ? "Alike" : "Once"
            at = index($0, "→ " form " ")
            names = substr($0, 1, at - 1)
            promise = substr($0, at + length("→ " form " "))
            sub(/^\{[AE] = [^}]*\} /, "", promise)
            # what stands beside the parameters, which have names, is asked, and belongs to the form
            asked = names
            while (sub(/\([a-z0-9_ ]+ : ([^()]|\([^()]*\))*\)/, "", asked)) {}
            gsub(/^[ →]+|[ →]+$/, "", asked)
            form = asked (asked == "" ? "" : " → ") form
            while (match(names, /\([a-z0-9_ ]+ :/)) {
                list = list (list == "" ? "" : " ") substr(names, RSTART + 1, RLENGTH - 3)
                names = substr(names, RSTART + RLENGTH)
            }
            promise = substr(promise, 2, length(promise) - 2)
            if (match(promise, /^λ \(?[a-z]+[,.]/)) {
                answer = substr(promise, RSTART, RLENGTH - 1)
                sub(/^λ \(?/, "", answer)
                while (match(promise, "(^|[^a-z0-9_\047.])" answer "($|[^a-z0-9_\047])")) {
                    at = RSTART + index(substr(promise, RSTART, RLENGTH), answer) - 1
                    promise = substr(promise, 1, at - 1) "result" substr(promise, at + length(answer))
                }
            }
            print form "|" list "|" promise
        }' "$stated" | sed -E 's/[A-Z][A-Za-z]*\.([a-z])/\1/g'
}

echo 'tests/unique.sh: statements and contracts'
functions=0
for root in crates/*/src/lib.rt; do
    crate=${root#crates/}
    crate=${crate%%/*}
    while IFS='|' read -r function form names promise; do
        # controller_c hands on a function of controller, with its clauses, under the name that hosts link
        case $crate in *_c) ;; *) functions=$((functions + 1)) ;; esac
        name=${crate%_c}_$function
        if ! grep -q "^pub ${name}_once : $name\$" "$proved"; then
            flunk "$crate: $function has no statement that is proved"
        else
            same "$crate: $function" "$form|$names|$promise" "$(statement "$name")"
        fi
    done < <(find "${root%/lib.rt}" -name '*.rt' | sort | while read -r source; do contracts "$source"; done)
done
same 'no statement without a function' "$functions" "$(grep -c '^abbrev pub [a-z].* : Type 0$' "$stated")"

close
