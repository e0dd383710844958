# Makes the tables of docs/BENCHMARKS.md of two files: instructions a byte, and microseconds a call. A row of either is
# call, text, bytes, ours, original, general; it ends behind ours where the original does not have the call. The best of all
# times counts.

BEGIN {
    FS = "\t"
    large = 65528
}

FNR == NR {
    row = $1 FS $2
    if (!(row in known)) {
        known[row] = 1
        rows[count++] = row
    }
    ours[row, $3] = $4
    original[row, $3] = $5
    general[row, $3] = $6
    next
}

$3 == large {
    row = $1 FS $2
    our_time[row] = best(our_time[row], $4)
    original_time[row] = best(original_time[row], $5)
}

END {
    print "| Call | Text | Instructions a byte: ours, 1 KB / 8 KB / 64 KB | original | ratio at 64 KB | over the automaton, 64 KB |" \
        " Microseconds at 64 KB: ours | original | ratio |"
    print "|---|---|---|---|---|---|---|---|---|"
    for (i = 0; i < count; i++) {
        if (is_usual(rows[i])) print_cost(rows[i])
    }
    print "\n| Text | Instructions a byte: ours, 1 KB / 8 KB / 64 KB | 64 KB to 8 KB | 64 KB to 1 KB | original, 1 KB / 8 KB / 64 KB |"
    print "|---|---|---|---|---|"
    for (i = 0; i < count; i++) {
        if (rows[i] ~ /^read/) print_growth(rows[i])
    }
    print "\n| Text | Instructions a byte: ours, 1 KB / 8 KB / 64 KB | `str::from_utf8` |"
    print "|---|---|---|"
    for (i = 0; i < count; i++) {
        if (rows[i] ~ /^utf8/) print_check(rows[i])
    }
    print "\n| Call | Text | Instructions a byte, 1 KB / 8 KB / 64 KB | 64 KB to 1 KB | Microseconds at 64 KB |"
    print "|---|---|---|---|---|"
    for (i = 0; i < count; i++) {
        if (!has_original(rows[i])) print_alone(rows[i])
    }
}

function has_original(row) {
    return original[row, large] != ""
}

# Hostile texts are only read.
function is_usual(row, names) {
    split(row, names, FS)
    return names[1] == "unquote" || ("format" FS names[2]) in known && names[1] != "utf8" && has_original(row)
}

function print_cost(row, names) {
    split(row, names, FS)
    printf "| %s | %s | %s | %s | %.2f | %s | %.0f | %.0f | %.2f |\n", names[1], names[2], short(ours, row), short(original, row),
        ours[row, large] / original[row, large], rounded(general[row, large]), our_time[row], original_time[row],
        our_time[row] / original_time[row]
}

function print_growth(row, names) {
    split(row, names, FS)
    printf "| %s | %s | %.2f | %.2f | %s |\n", names[2], short(ours, row), ours[row, large] / ours[row, 8192],
        ours[row, large] / ours[row, 1024], short(original, row)
}

function print_check(row, names) {
    split(row, names, FS)
    printf "| %s | %s | %s |\n", names[2], exact(ours, row), exact(original, row)
}

function print_alone(row, names) {
    split(row, names, FS)
    printf "| %s | %s | %s | %.2f | %.0f |\n", names[1], names[2], short(ours, row), ours[row, large] / ours[row, 1024],
        our_time[row]
}

function best(known_time, time) {
    return known_time == "" || time < known_time ? time : known_time
}

function short(side, row) {
    return rounded(side[row, 1024]) " / " rounded(side[row, 8192]) " / " rounded(side[row, large])
}

function exact(side, row) {
    return sprintf("%.2f / %.2f / %.2f", side[row, 1024], side[row, 8192], side[row, large])
}

function rounded(number) {
    return sprintf(number < 9.95 ? "%.1f" : "%.0f", number)
}
