# The log as a picture: lines that are no log, a log that is not whole, the totals and their shares, and the picture as XML. Sourced by run.sh.

# Lines that are no log: the table has the line's number, what follows a first PDU, and what is said of it.
check_lines() {
    local number line words
    while IFS='|' read -r number line words; do
        printf '%s\n0,received,,0,,,96,,,,0,0,,,\n%b\n' "$title" "$line" >wrong.csv
        stops "barzhilup coverage: wrong.csv: line $number: $words" coverage --in wrong.csv --out new
        there "a wrong log" no new
    done < <(grep -v '^#' "$data/coverage.lines")
    printf '0,received,,0,,,96,,,,0,0,,,\n' >wrong.csv
    stops "barzhilup coverage: wrong.csv: line 1: not $title" coverage --in wrong.csv
    { echo "$title"; head -c 601 /dev/zero | tr '\0' 0; } >wrong.csv
    stops "barzhilup coverage: wrong.csv: line 2: over 600 bytes" coverage --in wrong.csv
    stops "barzhilup coverage: sent: line 1: over 600 bytes" coverage --in sent
    echo old >kept
    run coverage --in wrong.csv --out kept --force
    said "a wrong log, with a picture that is there" 1 coverage "barzhilup coverage: wrong.csv: line 2: over 600 bytes"
    same "a wrong log leaves the picture as it was" old "$(cat kept)"
    there "a wrong log" no kept~
    rm kept
}

# Lines that end in a carriage return, too; and a last line that lacks its end.
check_line_ends() {
    sed 's/$/\r/' log.csv >returns.csv
    run coverage --in returns.csv
    same_file "lines that end in a carriage return, too" picture.svg out
    ended "lines that end in a carriage return, too" 0 coverage
    head -c -1 log.csv >endless.csv
    run coverage --in endless.csv
    same_file "a last line without its end" picture.svg out
    ended "a last line without its end" 0 coverage
}

# A log without its last line is drawn, and that it is not whole is said in a line and in the picture.
check_not_whole() {
    local wanted
    run coverage --in log.csv
    wanted=$(cat err)
    same "a whole log's picture does not say that it is not" 0 "$(grep -c 'not whole' out || true)"
    grep -v ',end,' log.csv >headless.csv
    run coverage --in headless.csv
    said "a log without its last line" 0 coverage "barzhilup coverage: headless.csv: has no last line: the log is not whole
$wanted"
    same "it is said in the picture" 1 "$(grep -c 'log is not whole' out || true)"
    same "it has the same cells" "$(grep -c '<rect' picture.svg)" "$(grep -c '<rect' out)"
    echo "$title" >title.csv
    run coverage <title.csv
    same "a log of no PDUs without its last line" "barzhilup coverage: standard input: has no last line: the log is not whole" "$(head -n 1 err)"
    ended "a log of no PDUs without its last line" 0 coverage
    check_cut_lines
}

# What a cut log is drawn as: its lines before the cut, without the one that is cut.
check_cut() { # WHAT WHOLE-LINES
    grep -v ',end,' "$2" >shorter.csv
    run coverage --in shorter.csv
    cp out shorter.svg
    run coverage --in cut.csv
    same_file "$1: the picture" shorter.svg out
    same "$1: what is said" "barzhilup coverage: cut.csv: has no last line: the log is not whole" "$(head -n 1 err)"
    ended "$1" 0 coverage
}

# A log that is cut inside a line: in one of a PDU, whose last number may be cut too, after each of its bytes; in one of an entry, and in its last line, after each
# that leaves it not whole; and in its first.
check_cut_lines() {
    local line length
    printf '%s\n0,received,,0,,,96,,,,1,0,,,\n0,packet,,,,5,40,,,,,,0badf00d,,\n' "$title" >start.csv
    for line in 1,received,first,0,,,96,,,,12,34,,, 0,packet,,,,63,4096,,,,,, 0,psd,,,,,14,,,,,, 0,note,,,,,,0, '1,refused,,,9,,96,,,La out of place,1,20,,,' \
        1,lost,,,,,,,,,1,0,,, ,end,,,,,,,,whole,,,,,0; do
        for ((length = 1; length <= ${#line}; length += 1)); do
            { cat start.csv; printf '%s' "${line:0:length}"; } >cut.csv
            check_cut "a log cut after '${line:0:length}'" start.csv
        done
    done
    { cat start.csv; printf '0,packet,,,,6,40,,,,,,0badf00d,,'; } >cut.csv
    { cat start.csv; printf '0,packet,,,,6,40,,,,,,0badf00d,,\n'; } >whole.csv
    check_cut "a log cut before a line's end" whole.csv
    for line in 5,packet,,,,6,40,,,,,,0badf00d,, "$(end_line 2)"; do
        { cat start.csv; printf '%s' "$line"; } >cut.csv
        run coverage --in cut.csv
        ended "a line that is whole but for its end, and wrong: $line" 1 coverage
    done
    { cat start.csv; end_line 1; printf '1,lo'; } >cut.csv
    stops "barzhilup coverage: cut.csv: line 5: kind is none of received, lost, refused, packet, psd, note" coverage --in cut.csv
    printf 'pdu,kind,copy' >cut.csv
    stops "barzhilup coverage: cut.csv: line 1: not $title" coverage --in cut.csv
}

# The PDUs of the file bits by their numbers, in the order given. They have 96 bytes and are of mode 0, whose sequence has one bit.
bits() {
    local number
    for number in "$@"; do
        head -c $((98 * (number + 1))) bits | tail -c 98
    done
}

# A share in per cent with one decimal, as the summary has it.
share() {
    awk -v part="$1" -v whole="$2" 'BEGIN { tenths = int((part * 1000 + int(whole / 2)) / whole); printf "%d.%d %%", int(tenths / 10), tenths % 10 }'
}

# How many lines of a log are of a kind, or match a pattern.
many() {
    grep -c "$1" "$2" || true
}

# The totals of a log, counted here from its lines: the summary's beginning, up to the packets delivered.
totals_of() {
    local received corrected lost refused all
    received=$(many ',received,' "$1")
    corrected=$(many ',received,[a-z]*,[1-8],' "$1")
    lost=$(many ',lost,,,,,,,,' "$1")
    refused=$(many ',refused,' "$1")
    all=$((received + lost + refused))
    printf 'barzhilup coverage: PDUs %s: received %s (%s of PDUs), ' "$all" "$received" "$(share "$received" "$all")"
    printf 'of these corrected %s (%s of the received), ' "$corrected" "$(share "$corrected" "$received")"
    printf 'lost %s, refused %s; wrong CRCs %s; ' "$lost" "$refused" "$(many ',wrong CRC,,,,,$' "$1")"
    loss_said "$(counted_loss "$1")"
}

# Delivered and missing of a log, counted here from the numbers of its packets: each after the first adds its number minus the last minus 1, modulo 64.
counted_loss() {
    awk -F , '$2 == "packet" { if (n) missing += ($6 + 63 - last) % 64; last = $6; n += 1 } END { print n + 0, missing + 0 }' "$1"
}

# What is said of delivered and missing in the line of totals.
loss_said() { # "DELIVERED MISSING"
    local delivered missing
    read -r delivered missing <<<"$1"
    printf 'packets delivered %s, missing %s' "$delivered" "$missing"
    if [ $((delivered + missing)) -gt 0 ]; then
        printf ' (%s of both)' "$(share "$missing" $((delivered + missing)))"
    fi
}

check_totals() {
    run coverage --in "$1"
    same "the totals of $1" "$(totals_of "$1")
$(exact_line)" "$(cat err)"
    ended "the picture of $1" 0 coverage
}

# A damaged piece: its CRC is wrong, which is counted and shown.
check_wrong_crcs() {
    { pdus 0 1; pdus 1 1 | head -c 250; printf '\xa5'; pdus 1 1 | tail -c +252; pdus 2 9; } >bad
    run log --in bad --format csv
    cp out bad.csv
    same "a damaged piece" 1 "$(many ',wrong CRC,,,,,$' bad.csv)"
    check_totals bad.csv
    same "a damaged piece in the picture, and two in the legend" 3 "$(grep -c '<circle' out || true)"
}

# A drive of no PDUs has no shares.
check_no_pdus() {
    printf '%s\n%s\n' "$title" "$(end_line 0)" >none.csv
    run coverage --in none.csv
    same "no shares of no PDUs" 0 "$(cat out err | grep -c '%' || true)"
    same "a picture of no PDUs is whole" "</svg>" "$(tail -n 1 out)"
    ended "a picture of no PDUs" 0 coverage
    printf '%s\n0,lost,,,,,,,,,0,0,,,\n%s\n' "$title" "$(end_line 1)" >none.csv
    run coverage --in none.csv
    same "no share of no received PDUs" 0 "$(grep -c 'of the received' err || true)"
    ended "a picture of no received PDUs" 0 coverage
}

# The picture has to be XML; where there is nothing to read XML with, says so.
check_picture() {
    if ! command -v xmllint >/dev/null; then
        echo "programs: no xmllint here; pictures are not read as XML"
        return
    fi
    run coverage --in log.csv --title '<&> "x" é' --columns 20
    same "a picture is XML" "" "$(xmllint --noout out 2>&1)"
    same "its title" '<&> "x" é' "$(xmllint --xpath 'string(/*/*[local-name()="title"])' out)"
    same "its cells, with seven in the legend" $((7 + $(many ',received,\|,lost,,,,,,,,\|,refused,' log.csv))) \
        "$(xmllint --xpath 'count(//*[local-name()="rect"][contains(" r c1 c2 c3 c4 l f ", concat(" ", @class, " "))])' out)"
}
