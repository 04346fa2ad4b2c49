# The tables of docs/PERFORMANCE.md in Markdown, from what run.sh prints: bash bench/run.sh | awk -f bench/tables.awk

# 12345 as 12,345; what is no such number stays as it is.
function grouped(n,    out) {
    if (n !~ /^[0-9]+$/) return n
    out = ""
    while (length(n) > 3) {
        out = "," substr(n, length(n) - 2) out
        n = substr(n, 1, length(n) - 3)
    }
    return n out
}

# A table's first two lines, from its headings with bars between them.
function head(headings,    names, n, i, line) {
    n = split(headings, names, "|")
    line = "|"
    for (i = 1; i <= n; i++) line = line "---|"
    gsub(/\|/, " | ", headings)
    printf "\n| %s |\n%s\n", headings, line
}

# A row's last nine columns: pieces, L, C, L/C, R, L/R and by byte L, C, R.
function column(i) { return grouped($(NF - 9 + i)) }

# A row of the main tables.
function main_row(job, number) {
    printf "| %s | %s | %s | %s | %s | %s | %s | %s |", job, number, column(1), column(2), column(3), column(4), column(5), column(6)
    if (unit == "ns") printf " %s | %s | %s |", column(7), column(8), column(9)
    printf "\n"
}

# A row of growth: what a writing row says is kept for the receiving row of the same number.
function growth_row(job, number,    costs) {
    costs = column(2) " | " column(3) " | " column(4)
    if (job == "write") written[number] = costs
    else printf "| %s | %s | %s |\n", number, written[number], costs
}

/^the eight sums/ { head("ns by header|as it is|with powers|ratio|middle half of the ratios"); part = "header"; next }
/^parity by shares/ { head("ns by header|by shares|by division|ratio|middle half of the ratios"); part = "header"; next }
/^two logs joined/ { head("ns by pair of logs|library|plain C|ratio|middle half of the ratios"); part = "header"; next }
/^ns per header/ { head("ns by header|library|libfec|ratio|middle half of the ratios"); part = "header"; next }
/^ns per byte/ { head("ns by byte|library|C, table|ratio|middle half of the ratios|C, bit by bit"); part = "CRC"; next }
/^PDUs of / {
    unit = /; ns, / ? "ns" : "instructions"
    part = /run on/ ? "main" : (unit == "ns" ? "growth" : "")
    title = $0
    sub(/; .*/, "", title)
    if (part != "") printf "\n%s, %s:\n", title, unit
    if (part == "main")
        head("job|bytes|pieces|library|plain C|ratio|referee|ratio" (unit == "ns" ? "|library, by byte|plain C, by byte|referee, by byte" : ""))
    if (part == "growth")
        head((/ up to / ? "bytes of a packet, at most" : / bytes, / ? "pieces" : "bytes") "|write, library|plain C|ratio|receive, library|plain C|ratio")
    next
}
/^Least squares/ {
    part = "fits"
    sub(/: .*per /, ", by ")
    printf "\n%s:\n", $0
    head("job|library, constant|slope|plain C, constant|slope|referee, constant|slope")
    next
}
/^Whose instructions/ { part = "shares"; head("job|bytes|its instructions"); next }
/^a pair of PDUs/ { part = "pair"; head("ns by pair|library|plain C|ratio|middle half of the ratios|two calls"); next }
/^bytes of stack/ { part = "stack"; head("function|bytes of stack"); next }
/^$/ || /^per PDU/ || / 0 +L slope/ { next }

part == "header" && / - +[0-9.]+$/ {
    name = $0
    sub(/  .*/, "", name)
    printf "| %s | %s | %s | %s | %s to %s |\n", name, grouped(sprintf("%.0f", $(NF - 5))), grouped(sprintf("%.0f", $(NF - 4))), $(NF - 3), $(NF - 2), $NF
}
part == "CRC" && /^CRC/ {
    name = $0
    sub(/  .*/, "", name)
    printf "| %s | %s | %s | %s | %s to %s | %s |\n", name, $(NF - 6), $(NF - 5), $(NF - 4), $(NF - 3), $(NF - 1), $NF
}
(part == "main" || part == "growth") && NF >= 12 {
    job = $0
    sub(/,[^,]*$/, "", job)
    if (part == "main") main_row(job, grouped($(NF - 10)))
    else growth_row(job, grouped($(NF - 10)))
}
part == "fits" && NF == 7 {
    printf "| %s | %s | %s | %s | %s | %s | %s |\n", $1, grouped($2), $3, grouped($4), $5, grouped($6), $7
}
part == "shares" && /, library: / {
    job = $0
    sub(/, library: .*/, "", job)
    functions = $0
    sub(/.*, library: +/, "", functions)
    bytes = job
    sub(/ bytes$/, "", bytes)
    sub(/.* /, "", bytes)
    sub(/, [0-9]+ bytes$/, "", job)
    gsub(/__mem[a-z_0-9]*/, "the C library", functions)
    printf "| %s | %s | %s |\n", job, grouped(bytes), functions
}
part == "pair" && / - +[0-9.]+ +([0-9]+|-)$/ {
    name = $0
    sub(/  .*/, "", name)
    printf "| %s | %s | %s | %s | %s to %s | %s |\n", name, grouped($(NF - 6)), grouped($(NF - 5)), $(NF - 4), $(NF - 3), $(NF - 1), grouped($NF)
}
part == "stack" && NF == 2 { printf "| `%s` | %s |\n", $1, grouped($2) }
