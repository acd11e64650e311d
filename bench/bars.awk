# Prints what bench/instructions counted, a line for each card and a column for each kind, and holds it to the bars: the
# first file has the counts, the second the bars. Ends with 1 where a bar is broken.

# what a call is counted as
function key(kind, card, kib) { return kind " " card " " kib }

# instructions for each byte
function each(k) { return bytes[k] > 0 ? instructions[k] / bytes[k] : 0 }

function print_line(card, kib,    i, k) {
    printf "%-22s %3d", card, kib
    for (i = 1; i <= kinds; i++) {
        k = key(kind_at[i], card, kib)
        printf(" %" (length(kind_at[i]) + 2) "s", bytes[k] > 0 ? sprintf("%.1f", each(k)) : "-")
    }
    print ""
}

# the cards of which every kind was counted
function print_table(    i, kib) {
    print "instructions for each byte of the tree or, in resolving, of the records (-: refused)"
    printf "%-22s %3s", "card", "KiB"
    for (i = 1; i <= kinds; i++) printf "   %s", kind_at[i]
    print ""
    for (i = 1; i <= cards; i++) {
        for (kib = 4; kib <= 32; kib *= 2) {
            if (key("copy", card_at[i], kib) in bytes) print_line(card_at[i], kib)
        }
    }
    printf "\n%-58s %9s %8s\n", "bars, in instructions", "figure", "at most"
}

# one figure with its bar; a call that was refused or not counted breaks it
function judge(what, counted, figure, most,    verdict) {
    verdict = most == "-" ? "no bar" : counted && figure <= most + 0 ? "held" : "broken"
    broken += verdict == "broken"
    printf "%-58s %9s %8s  %s\n", what, counted ? sprintf("%.2f", figure) : "none", most, verdict
}

# a call's instructions for each byte
function judge_bytes(kind, card, kib, most,    k) {
    k = key(kind, card, kib)
    judge(kind " " card ", " kib " KiB, for each byte", bytes[k] > 0, each(k), most)
}

# a call's instructions against those of another on the same card
function judge_calls(card, kind, kib, kind2, kib2, most,    a, b, counted) {
    a = key(kind, card, kib)
    b = key(kind2, card, kib2)
    counted = bytes[a] > 0 && bytes[b] > 0
    if (!counted && most == "-") return
    judge(kind " " card ", " kib " KiB, against " (kind == kind2 ? "" : kind2 ", ") kib2 " KiB", counted,
        counted ? instructions[a] / instructions[b] : 0, most)
}

NR == FNR {
    if (!($1 in seen)) kind_at[++kinds] = $1
    if (!($2 in seen)) card_at[++cards] = $2
    seen[$1] = seen[$2] = 1
    bytes[key($1, $2, $3)] = $4
    instructions[key($1, $2, $3)] = $5
    next
}

FNR == 1 { print_table() }

$4 == "byte" { judge_bytes($1, $2, $3, $5); next }

NF == 6 && $2 == "*" {
    for (c = 1; c <= cards; c++) judge_calls(card_at[c], $1, $3, $4, $5, $6)
    next
}

NF == 6 { judge_calls($2, $1, $3, $4, $5, $6) }

END {
    print broken ? broken " bars: BROKEN" : "all bars: held"
    exit broken > 0
}
