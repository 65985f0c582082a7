# The tables of docs/PERFORMANCE.md, from the lines that bench/run gathered.

# 1234567 as 1,234,567.
function thousands(n,    text, out) {
    text = sprintf("%.0f", n)
    while (length(text) > 3) {
        out = "," substr(text, length(text) - 2) out
        text = substr(text, 1, length(text) - 3)
    }
    return text out
}

# What a call costs, of instructions (count) or of time: its part less the part that leads up to it.
function cost(kind, name, build, row) {
    if (row == "slot") return build == "floor" ? -1 : difference(kind, name, build, "longer", "stand") / 1000
    if (row == "run") return difference(kind, name, build, "all", "none")
    return difference(kind, name, build, row, row == "table" ? "fields" : "stand")
}

function difference(kind, name, build, part, before) {
    if (!((kind, name, build, part) in told)) return -1
    return told[kind, name, build, part] - told[kind, name, build, before]
}

function shown(n) { return n < 0 ? "–" : thousands(n) }

function ratio(a, b) { return a < 0 || b <= 0 ? "–" : sprintf("%.2f", a / b) }

# Nanoseconds as microseconds.
function micro(n) { return n < 0 ? "–" : sprintf("%.2f", n / 1000) }

$1 == "count" || $1 == "time" { told[$1, $2, $3, $4] = $5 }
$1 == "stack" && $5 > stack[$3 " " $2] { stack[$3 " " $2] = $5 }
$1 == "places" { places[$2] = $3 }
$1 == "size" { size[$2] = $3 }

END {
    split("small middle worst", names, " ")
    split("table moving admission slot run", rows, " ")
    print "| table | call | ours | (a) method in C | (b) plan in C | pile in C | (c) only writes | ours ÷ (a) | (b) ÷ ours | µs: ours | (a) | ours ÷ (a) |"
    print "|---|---|--:|--:|--:|--:|--:|--:|--:|--:|--:|--:|"
    for (n = 1; n <= 3; n++)
        for (r = 1; r <= 5; r++) {
            a = names[n]; c = rows[r]
            ours = cost("count", a, "ours", c); method = cost("count", a, "method", c); plan = cost("count", a, "plan", c)
            ours_time = cost("time", a, "ours", c); method_time = cost("time", a, "method", c)
            printf "| %s | %s | %s | %s | %s | %s | %s | %s | %s | %s | %s | %s |\n", a, c, shown(ours), shown(method), shown(plan),
                shown(cost("count", a, "pile", c)), shown(cost("count", a, "floor", c)), ratio(ours, method), ratio(plan, ours),
                micro(ours_time), micro(method_time), ratio(ours_time, method_time)
        }
    print ""
    print "| growth | table: ours | (a) | ours ÷ (a) | admission: ours | (a) | ours ÷ (a) |"
    print "|---|--:|--:|--:|--:|--:|--:|"
    split("places2 places4 places6 places8 places10 tasks2 tasks4 tasks8 tasks16", steps, " ")
    for (n = 1; n <= 9; n++) {
        a = steps[n]
        t = cost("count", a, "ours", "table"); u = cost("count", a, "method", "table")
        v = cost("count", a, "ours", "admission"); w = cost("count", a, "method", "admission")
        label = (a ~ /^places/ ? 16 : substr(a, 6)) " tasks, " places[a] " places"
        printf "| %s | %s | %s | %s | %s | %s | %s |\n", label, shown(t), shown(u), ratio(t, u), shown(v), shown(w), ratio(v, w)
    }
    print ""
    print "| | ours | (a) method in C |"
    print "|---|--:|--:|"
    printf "| code, bytes | %s | %s |\n", shown(size["ours"]), shown(size["method"])
    printf "| code of the boot call alone, bytes | %s | – |\n", shown(size["boot"])
    for (n = 1; n <= 3; n++)
        printf "| deepest stack, bytes, %s | %s | %s |\n", names[n], shown(stack["ours " names[n]]), shown(stack["method " names[n]])
}
