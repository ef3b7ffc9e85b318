# The bar chart as SVG, from the raw figures: ns per request, one group for each traffic.
BEGIN {
    FS = ","
    words["plain"] = "plain C"; words["steps"] = "plain C, by value"; words["tuned"] = "tuned C"
    words["in_place"] = "proved turn_in_place"; words["turn"] = "proved turn, by value"; words["bdb"] = "Berkeley DB's lock table"
    kinds = split("refused done pressed lessons", mixes, " ")
    heads["refused"] = "Refused-heavy traffic"; heads["done"] = "Done-heavy traffic"; heads["pressed"] = "Pressed traffic (places nearly full)"
    heads["lessons"] = "Long lessons (all places held by old tickets)"
}
$1 == "meta" { value = $5; for (k = 6; k <= NF; k++) value = value "," $k; meta[$3] = value }
$1 == "time" {
    if (!(($2, $3) in time) || $5 < time[$2, $3]) time[$2, $3] = $5
    if (!($3 in seen)) { seen[$3] = 1; desks[++n] = $3 }
}
function text(class, x, y, anchor, words) {
    printf "<text class=\"%s\" x=\"%d\" y=\"%d\" text-anchor=\"%s\">%s</text>\n", class, x, y, anchor, words
}
END {
    for (k in time) if (time[k] > most) most = time[k]
    left = 190; width = 720; bar = 20; room = width - left - 70
    group = 34 + n * (bar + 6)
    height = 64 + kinds * group + 26
    printf "<svg xmlns=\"http://www.w3.org/2000/svg\" viewBox=\"0 0 %d %d\" width=\"%d\" height=\"%d\" role=\"img\" aria-label=\"Nanoseconds per request of each desk, less is better\">\n", width, height, width, height
    print "<style>"
    print "text { font: 13px sans-serif; fill: #1f2328 } .title { font-size: 16px; font-weight: bold } .head { font-weight: bold } .note { font-size: 11px; fill: #59636e }"
    print ".ground { fill: #ffffff } .plain { fill: #8c959f } .steps { fill: #afb8c1 } .tuned { fill: #57606a } .in_place { fill: #1a7f37 } .turn { fill: #4ac26b } .bdb { fill: #bf8700 } .axis { stroke: #8c959f }"
    print "@media (prefers-color-scheme: dark) { text { fill: #e6edf3 } .note { fill: #9198a1 } .ground { fill: #0d1117 } .plain { fill: #8b949e } .steps { fill: #6e7681 } .tuned { fill: #b1bac4 } .in_place { fill: #3fb950 } .turn { fill: #238636 } .bdb { fill: #d29922 } }"
    print "</style>"
    printf "<rect class=\"ground\" width=\"%d\" height=\"%d\"/>\n", width, height
    text("title", 16, 28, "start", "Nanoseconds per request (less is better)")
    text("note", 16, 47, "start", meta["date"] "; " meta["machine"] (meta["note"] != "" ? "; " meta["note"] ", not a quiet machine" : ""))
    y = 64
    for (m = 1; m <= kinds; m++) {
        text("head", 16, y + 18, "start", heads[mixes[m]])
        y += 28
        printf "<line class=\"axis\" x1=\"%d\" y1=\"%d\" x2=\"%d\" y2=\"%d\"/>\n", left, y, left, y + n * (bar + 6) - 2
        for (d = 1; d <= n; d++) {
            long = time[mixes[m], desks[d]] / most * room
            text("label", left - 8, y + 15, "end", words[desks[d]])
            printf "<rect class=\"%s\" x=\"%d\" y=\"%d\" width=\"%.1f\" height=\"%d\"/>\n", desks[d], left, y, long, bar
            text("label", left + long + 6, y + 15, "start", sprintf("%.1f", time[mixes[m], desks[d]]))
            y += bar + 6
        }
        y += 6
    }
    if (meta["proved"] == "retargeted") text("note", 16, height - 10, "start", "The proved desk is compiled for this machine from the module of its x86-64 library.")
    if (meta["proved"] == "") text("note", 16, height - 10, "start", "The proved desk was not measured in this run.")
    print "</svg>"
}
