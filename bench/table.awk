# The table in Markdown, from the raw figures.
BEGIN {
    FS = ","
    words["plain"] = "plain C"; words["steps"] = "plain C, by value"; words["tuned"] = "tuned C"
    words["in_place"] = "**proved `turn_in_place`**"; words["turn"] = "**proved `turn`**, by value"; words["bdb"] = "Berkeley DB's lock table"
    kinds = split("refused done pressed lessons", mixes, " ")
    heads["refused"] = "refused-heavy"; heads["done"] = "done-heavy"; heads["pressed"] = "pressed"; heads["lessons"] = "long lessons"
    split("begin read write certify commit abort ask", operations, " ")
    meaning[0] = "done"; meaning[1] = "delayed"; meaning[2] = "signalled"; meaning[3] = "no such operation"
    meaning[4] = "no such level"; meaning[5] = "an unused field is not zero"; meaning[6] = "no such transaction"
    meaning[7] = "no such item"; meaning[8] = "wrong level"; meaning[9] = "wrong time"; meaning[10] = "versions spent"
    meaning[11] = "all places taken"; meaning[12] = "no ticket left"; meaning[15] = "blank sheet"
}
$1 == "meta" { value = $5; for (k = 6; k <= NF; k++) value = value "," $k; meta[$3] = value }
$1 == "time" || $1 == "x86_64" { if (!($3 in seen)) { seen[$3] = 1; desks[++n] = $3 } }
$1 == "time" { if (!(($2, $3) in time) || $5 < time[$2, $3]) time[$2, $3] = $5; size = $4 }
$1 == "instructions" { instructions[$2, $3] = $5; counted = $4 }
$1 == "x86_64" { foreign[$2, $3] = $5; few = $4 }
$1 == "growth" { growth[$3, $4] = $5; if (!($4 in sized)) { sized[$4] = 1; sizes[++g] = $4 } }
$1 == "calls" { calls[$2] = $5 / $4 }
$1 == "map" { if (!(($2, $3) in call) || $5 < call[$2, $3]) call[$2, $3] = $5; read = $4 }
$1 == "mix" { total[$2] += $5; of_number[$2, $4] += $5; of_both[$2, $3, $4] += $5 }

function row(first, cells) { print "| " first " |" cells }
function head(first,    m, line, rule) {
    for (m = 1; m <= kinds; m++) { line = line " " heads[mixes[m]] " |"; rule = rule "---|" }
    row(first, line); print "|---|" rule
}
function shared(count, mix) { return count ? sprintf(" %.1f |", 100 * count / total[mix]) : " |" }
function figures(what, figure,    d, m, line, mix, desk) {
    head(what)
    for (d = 1; d <= n; d++) {
        desk = desks[d]; line = ""
        if (!((mixes[1], desk) in figure)) continue
        for (m = 1; m <= kinds; m++) {
            mix = mixes[m]
            line = line sprintf(" %.1f (%.2f; %.2f) |", figure[mix, desk], figure[mix, desk] / figure[mix, "plain"], figure[mix, desk] / figure[mix, "tuned"])
        }
        row(words[desk], line)
    }
    print ""
}
# Of the pressed traffic under rule B beside that under A (CR 7).
function under_b(what, figure,    d, desk, a, b) {
    if (!(("pressed_b", "plain") in figure)) return
    row(what, " under A | under B | B to A |"); print "|---|---|---|---|"
    for (d = 1; d <= n; d++) {
        desk = desks[d]
        if (!(("pressed_b", desk) in figure)) continue
        a = figure["pressed", desk]; b = figure["pressed_b", desk]
        row(words[desk], sprintf(" %.1f | %.1f | %.2f |", a, b, b / a))
    }
    print ""
}
# Of one call, less the same call without reads, a read's share.
function per_read(unit, way, base) { return (call[unit, way] - call[unit, base]) / read }
function maps(    u, line, rule, unit, plain, single, map, units, heads, rows) {
    split("time instructions x86_64", units, " ")
    split("ns,instructions,x86-64 instructions", heads, ",")
    for (u = 1; u <= 3; u++) {
        unit = units[u]
        if (!((unit, "map") in call)) continue
        line = line " " heads[u] " |"; rule = rule "---|"
        plain = per_read(unit, "plain_reads", "plain_begin"); single = per_read(unit, "reads", "begin"); map = per_read(unit, "map", "begin")
        rows[1] = rows[1] sprintf(" %.1f |", plain); rows[2] = rows[2] sprintf(" %.1f |", single)
        rows[3] = rows[3] sprintf(" %.1f |", map); rows[4] = rows[4] sprintf(" %.2f |", map / single)
        rows[5] = rows[5] sprintf(" %.0f |", call[unit, "begin"]); rows[6] = rows[6] sprintf(" %.0f |", call[unit, "turn_begin"])
    }
    row(read " items by one map beside " read " single reads, per read", line); print "|---|" rule
    row("plain C, single reads", rows[1])
    row("proved `turn_in_place`, single reads", rows[2])
    row("**proved map**", rows[3])
    row("map to single reads, proved (target: at most 1.1)", rows[4])
    row("the whole call, with nothing to read", rows[5])
    row("of it the opening and the first turn", rows[6])
    print ""
}
END {
    if (meta["note"] != "") print "_" meta["note"] ": these times were not taken on a quiet machine and settle nothing._\n"
    figures("ns per request (ratio to plain C; to tuned C)", time)
    if (counted) figures("instructions per request (ratio to plain C; to tuned C)", instructions)
    if (few) figures("x86-64 instructions per request (ratio to plain C; to tuned C)", foreign)

    under_b("pressed: ns per request", time)
    if (counted) under_b("pressed: instructions per request", instructions)

    if (read) maps()

    head("the mix met: reply, share in percent")
    for (k = 0; k <= 15; k++) {
        line = ""; met = 0
        for (m = 1; m <= kinds; m++) { met += of_number[mixes[m], k]; line = line shared(of_number[mixes[m], k], mixes[m]) }
        if (met) row(k " " meaning[k], line)
        for (o = 0; met && k < 2 && o < 7; o++) {
            line = ""; met_here = 0
            for (m = 1; m <= kinds; m++) { c = of_both[mixes[m], o, k]; met_here += c; line = line shared(c, mixes[m]) }
            if (met_here) row("&emsp;" operations[o + 1], line)
        }
    }
    if ("done" in calls) {
        line = ""
        for (m = 1; m <= kinds; m++) line = line sprintf(" %.2f |", calls[mixes[m]])
        row("calls of Berkeley DB per request", line)
    }
    print ""

    line = ""; rule = ""
    for (k = 1; k <= g; k++) { line = line " " sprintf("%d", sizes[k]) " |"; rule = rule "---|" }
    row("ns per request by requests served in one run, done-heavy", line); print "|---|" rule
    for (d = 1; d <= n; d++) {
        line = ""
        if (!((desks[d], sizes[1]) in growth)) continue
        for (k = 1; k <= g; k++) line = line sprintf(" %.1f |", growth[desks[d], sizes[k]])
        row(words[desks[d]], line)
    }
    print ""

    print "Measured on " meta["date"] " (" meta["machine"] "), " size " requests of each traffic over " meta["items"] " items, least of " meta["rounds"] " rounds over all desks in turn, in three programs; replies of all desks compared byte for byte first."
    print "Plain C by " meta["plain by"] "; tuned C by " meta["tuned by"] ("bdb" in meta ? "; " meta["bdb"] : "; Berkeley DB was not to be had, so its row is missing") "; kit " meta["kit"] "."
    print "Load of the machine before and after: " meta["load before"] " and " meta["load after"] "; this program alone makes 1.0."
    if (counted) print "Instructions: callgrind, " counted " requests."
    if (meta["proved"] == "") print "The proved desk is not in this table: its library was not there or not usable."
    if (meta["proved"] == "retargeted") print "The kit's static library is for x86-64. The proved desk's times and callgrind's counts here are of the same LLVM module, compiled for this machine by the kit's clang at -O3; they are not of the archive itself."
    if (few) print "The x86-64 instructions are of the archive itself and of the C desks built for x86-64, " few " requests, counted under the kit's emulator."
}
