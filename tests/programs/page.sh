# The picture of a drive as it is handed on: the estimate of what is missing, PDUs that came twice or out of turn, the HTML page with its head, overview and
# pages, and times. Sourced by run.sh.

# The first line of the logs that are made here, of seven columns.
seven=pdu,kind,number,length,cause,delivered,missing

# Drives with far gaps, of many packets to a PDU: the estimate is what is missing by the packets sent and those logged.
check_page_estimate() {
    local seed wanted far=0
    numbered 3000 >row
    run generate --in row --length 1100
    cp out numbered
    run log --in numbered --format words
    logged_packets out >row.packets
    for seed in 1 2 3 4; do
        run channel --in numbered --seed "$seed" --loss 80 --burst 7
        cp out came
        run log --in came --format words
        wanted=$(places_logged out | sed -n '1p;$p' | tr '\n' ' ')
        wanted=$((${wanted#* } - ${wanted%% *} + 1 - $(places_logged out | wc -l)))
        run log --in came --format csv
        cp out far.csv
        run coverage --in far.csv
        ended "far gaps, seed $seed" 0 coverage
        same "far gaps, seed $seed, the estimate" "$wanted" "$(said_about)"
        same "far gaps, seed $seed, what is certain" "$(loss_said "$(last_loss far.csv)")" "$(said_least)"
        if said_loss | grep 'missing about' >/dev/null; then
            far=$((far + 1))
            same "far gaps, seed $seed, in the picture" "$wanted $(last_loss far.csv | cut -d ' ' -f 2)" "$(figure 'missing, about') $(figure 'missing, at least')"
            same "far gaps, seed $seed, what both are" 1 "$(grep -c 'at least is what packet numbers tell, which repeat after 64; about takes' err || true)"
        fi
    done
    same "drives with far gaps" yes "$([ "$far" -ge 2 ] && echo yes || echo no)"
}

# What is said of PDUs that came twice and out of turn, and of what the record has.
turns_said() { # TWICE LATE "DELIVERED MISSING"
    echo "barzhilup coverage: PDUs that look as if they came twice: $1, out of turn: $2; their packets are counted once here, by what they look like; the receiver's record counts them again: delivered ${3% *}, missing ${3#* }"
}

# Draws the PDUs of the file steps in an order, which end a packet each: those that came twice and out of turn are marked, said and counted once.
draws_turns() { # "NUMBER..." TWICE LATE "DELIVERED MISSING"
    local about="PDUs $1" numbers
    read -r -a numbers <<<"$1"
    steps "${numbers[@]}" >came
    run log --in came --mode 1 --format csv
    cp out turns.csv
    run coverage --in turns.csv
    ended "$about" 0 coverage
    same "$about, delivered and missing" "$(loss_said "$4")" "$(said_loss)"
    same "$about, what is said" "$(turns_said "$2" "$3" "$(last_loss turns.csv)")" "$(tail -n 1 err)"
    same "$about, marks, and those of the legend" "$(($2 + 1)) $(($3 + 1))" "$(grep -c '<text class="d"' out || true) $(grep -c '<path class="d"' out || true)"
    same "$about, the legend" "looks as if it came twice: $2, out of turn: $3. Counted once here; the record has delivered $(last_loss turns.csv | sed 's/ /, missing /')." \
        "$(sed -n 's/.*>\(looks as if .*\)<.*/\1/p' out)"
    same "$about, no tick is a wrap" "" "$(ticks | tr ' ' '\n' | awk '$1 > 8')"
}

# PDUs that come twice, out of turn, and both; a drive without such has no mark and no line.
check_page_turns() {
    draws_turns "0 1 2 2 3 4 4 5" 2 0 "6 0"
    draws_turns "0 0 1 2 3" 1 0 "4 0"
    draws_turns "0 1 3 2 4 5" 0 1 "6 0"
    draws_turns "0 1 3 2 2 4 5" 1 1 "6 0"
    draws_turns "0 1 3 3 2 4 5" 1 1 "6 0"
    draws_turns "0 2 1 4 3 5" 0 2 "6 0"
    draws_turns "1 0 2 3" 0 1 "4 0"
    steps 0 1 2 3 4 5 >came
    run log --in came --mode 1 --format csv
    cp out turns.csv
    run coverage --in turns.csv
    same "no PDU came twice or out of turn" 0 "$(cat out err | grep -c 'class="d"\|twice\|out of turn' || true)"
    check_page_turns_lost
    check_page_turns_drives
}

# A PDU that is not the next one and nothing comes of later: what is before it is missing. A PDU with the number of the last one and another CRC-32 is not it again.
check_page_turns_lost() {
    steps 0 1 3 4 5 >came
    run log --in came --mode 1 --format csv
    cp out turns.csv
    run coverage --in turns.csv
    same "a PDU that is not marked lost" "$(loss_said "5 1")" "$(said_loss)"
    same "a PDU that is not marked lost, no marks" 0 "$(grep -c 'class="d"' out || true)"
    steps 0 1 2 2 3 >came
    run log --in came --mode 1 --format csv
    sed '/^3,packet,/s/,[0-9a-f]*,,$/,0badf00d,,/' out >turns.csv
    run coverage --in turns.csv
    same "another packet of the same number" "$(loss_said "$(last_loss turns.csv)")" "$(said_loss)"
    same "another packet of the same number, no marks" 0 "$(grep -c 'class="d"' out || true)"
    older turns.csv >counted.csv
    run coverage --in counted.csv
    same "the same number in a log without CRC-32" "$(loss_said "4 0")" "$(said_loss)"
}

# Drives in which PDUs come twice and out of turn, of many packets, some lost: delivered and missing are those of the packets sent, each counted once.
check_page_turns_drives() {
    local seed wanted twice=0 late=0
    numbered 900 >row
    run generate --in row --length 300 --mode 1
    cp out numbered
    run log --in numbered --mode 1 --format words
    logged_packets out >row.packets
    for seed in 1 2 3 4 5 6; do
        run channel --in numbered --seed "$seed" --loss 20 --burst 3 --damage 0 --twice 40 --swap 40
        cp out came
        run log --in came --mode 1 --format words
        wanted=$(places_logged out | sort -n -u | loss_by_places)
        run log --in came --mode 1 --format csv
        cp out turns.csv
        run coverage --in turns.csv
        same "PDUs twice and out of turn, seed $seed" "$(loss_said "$wanted")" "$(said_loss)"
        twice=$((twice + $(grep -c '<text class="d"' out || true) - 1))
        late=$((late + $(grep -c '<path class="d"' out || true) - 1))
    done
    same "PDUs twice and out of turn in these drives" yes "$([ "$twice" -ge 20 ] && [ "$late" -ge 20 ] && echo yes || echo no)"
}

# What is said of a mode and stream that are not in the table.
unlisted="refused with 5: --mode, --stream: not in the table: stream 0 has modes 0, 1, 2, 3, 10 and 13, stream 1 has modes 1, 2, 3 and 10"

# Wrong usage, and what is only known with the drive.
check_page_asked() {
    local option
    wrong "barzhilup coverage: --format: not svg or html: xml" coverage --in log.csv --format xml
    wrong "barzhilup coverage: --format: not svg or html: " coverage --in log.csv --format ''
    for option in station date source note; do
        wrong "barzhilup coverage: --$option: goes with --format html" coverage --in log.csv "--$option" x
        wrong "barzhilup coverage: --$option: goes with --format html" coverage --in log.csv "--$option" x --format svg
    done
    for option in title station date source; do
        wrong "barzhilup coverage: --$option: over 200 bytes, or not UTF-8" coverage --in log.csv --format html "--$option" "$(head -c 201 /dev/zero | tr '\0' x)"
        wrong "barzhilup coverage: --$option: over 200 bytes, or not UTF-8" coverage --in log.csv --format html "--$option" "$(printf 'a\xff')"
    done
    wrong "barzhilup coverage: --note: over 4000 bytes, or not UTF-8" coverage --in log.csv --format html --note "$(head -c 4001 /dev/zero | tr '\0' x)"
    stops "barzhilup coverage: $unlisted" coverage --in log.csv --out new --mode 4
    stops "barzhilup coverage: $unlisted" coverage --in log.csv --out new --stream 1
    stops "barzhilup generate: $unlisted" generate --in packets --out new --mode 4
    stops "barzhilup coverage: --page: there are only so many pages: 1" coverage --in log.csv --out new --page 2
    there "a page that there is not" no new
    run coverage --in log.csv --format svg
    same_file "--format svg is what is drawn without it" picture.svg out
}

# The texts of a page's head stand in it once, as text, in their order; those that are not given leave no line.
check_page_texts() {
    local note
    note=$(head -c 4000 /dev/zero | tr '\0' '&')
    run coverage --in log.csv --format html --title "<A> & 'B' \"C\"" --station 'WXYZ <1>' --date 2026-11-17 --source 'car & roof' --mode 0 --note "$note"
    ended "a page with a head" 0 coverage
    same "a page's title, at its head and on its sheet" 3 "$(grep -c '&lt;A&gt; &amp; &#39;B&#39; &quot;C&quot;' out || true)"
    same "a page's head" '<p><b>Station</b>WXYZ &lt;1&gt;</p>
<p><b>Date</b>2026-11-17</p>
<p><b>Source</b>car &amp; roof</p>
<p><b>Mode</b>0</p>
<p><b>PDU length</b>300 bytes</p>
<p><b>PDU time</b>1486.1 ms</p>' "$(grep '^<p><b>' out | sed -n 1,6p)"
    same "a page's note" 4000 "$(grep -o '&amp;' <(grep 'class="note"' out) | wc -l)"
    check_page_whole "a page with a head"
    run coverage --in log.csv --format html
    same "a page without a head" '<p><b>PDU length</b>300 bytes</p>' "$(grep '<p>\|<p ' out || true)"
    same "a page has nothing from outside, and no script" 0 "$(grep -ci '<script\|href\|src=\|@import\|url(' out || true)"
    check_page_whole "a page without a head"
}

# A page is closed as it is opened; where there is something to read XML with, it is read so, but for the tag that HTML leaves open.
check_page_whole() {
    same "$1, its first line and its last" "<!DOCTYPE html> </html>" "$(head -n 1 out) $(tail -n 1 out)"
    if command -v xmllint >/dev/null; then
        same "$1, read as XML" "" "$(grep -v '^<meta charset' out | xmllint --noout - 2>&1)"
    fi
}

# Times of rows and columns, by ms and by mode: an L1 frame takes 65,536 / 44,100 s.
check_page_times() {
    { echo "$seven"; for ((pdu = 0; pdu < 130; pdu += 1)); do echo "$pdu,lost,,,,0,0"; done; echo ",end,130,,whole,,"; } >long.csv
    run coverage --in long.csv --columns 20
    same "no times" 0 "$(grep -c 'class="q u"\|+[0-9.]* s<' out || true)"
    run coverage --in long.csv --columns 20 --pdu-ms 60000
    same "times of rows" "0:00:00 0:20:00 0:40:00 1:00:00 1:20:00 1:40:00 2:00:00 " "$(row_times)"
    same "times of columns" "+0.0 s +600.0 s " "$(sed -n 's/.*>\(+[0-9.]* s\)<.*/\1/p' out | tr '\n' ' ')"
    run coverage --in long.csv --columns 20 --mode 0
    same "times of mode 0" "0:00:00 0:00:29 0:00:59 0:01:29 0:01:58 0:02:28 0:02:58 " "$(row_times)"
    run coverage --in long.csv --columns 20 --mode 10 --stream 1
    same "times of mode 10, enhanced" "0:00:00 0:00:03 0:00:07 0:00:11 0:00:14 0:00:18 0:00:22 " "$(row_times)"
    run coverage --in long.csv --columns 20 --mode 10 --pdu-ms 1000
    same "ms and a mode: ms count" "0:00:00 0:00:20 0:00:40 0:01:00 0:01:20 0:01:40 0:02:00 " "$(row_times)"
}

row_times() {
    sed -n 's/.*class="q u".*>\([0-9:]*\)<.*/\1/p' out | tr '\n' ' '
}

# Pages of rows: each PDU stands on one of them, and a page by itself has its own.
check_page_rows() {
    local page all=
    run coverage --in long.csv --columns 20 --rows 2 --format html --title 'Up & down'
    ended "pages of two rows" 0 coverage
    same "pages of two rows" "Up &amp; down: PDU 0 to 39, page 1 of 4
Up &amp; down: PDU 40 to 79, page 2 of 4
Up &amp; down: PDU 80 to 119, page 3 of 4
Up &amp; down: PDU 120 to 129, page 4 of 4" "$(sed -n 's/<h2>\(.*PDU .* to .*\)<\/h2>/\1/p' out)"
    same "pages of two rows, their rows" "0 20 40 60 80 100 120 " "$(row_numbers)"
    same "pages of two rows, their cells" 130 "$(sed -n '/<section>/,$p' out | grep -c '<rect class="l"' || true)"
    check_page_whole "pages of two rows"
    for page in 1 2 3 4; do
        run coverage --in long.csv --columns 20 --rows 2 --page "$page"
        ended "page $page" 0 coverage
        same "page $page of 4" 1 "$(grep -c ">page $page of 4<" out || true)"
        same "page $page, read as XML" "" "$(! command -v xmllint >/dev/null || xmllint --noout out 2>&1)"
        same "page $page, its height" "$([ "$page" = 4 ] && echo 392 || echo 448)" "$(sed -n '1s/.* height="\([0-9]*\)".*/\1/p' out)"
        all="$all$(row_numbers)"
    done
    same "pages by themselves, their rows" "0 20 40 60 80 100 120 " "$all"
    run coverage --in long.csv --columns 20 --rows 2 --format html --page 3
    same "one page of HTML, its rows" "80 100 " "$(row_numbers)"
    run coverage --in long.csv --columns 20 --rows 2 --format html
    same "pages of two rows without a title" "Coverage: PDU 0 to 39, page 1 of 4" "$(sed -n 's/<h2>\(.*PDU .* to .*\)<\/h2>/\1/p' out | sed -n 1p)"
    run coverage --in long.csv --columns 20
    same "all rows on one page" 0 "$(grep -c '>page ' out || true)"
    check_page_long
}

# A picture of over 60 rows is said to be one, and how there are pages; others are not.
check_page_long() {
    local pdu rows
    { echo "$seven"; for ((pdu = 0; pdu < 1201; pdu += 1)); do echo "$pdu,lost,,,,0,0"; done; } >tall.csv
    run coverage --in tall.csv --columns 20
    ended "a picture of 61 rows" 0 coverage
    has_line "a picture of 61 rows" "barzhilup coverage: --rows: not given, so the picture has all rows: 61; --rows N draws a page of N rows, --page K another one, --format html pages to print" err
    for rows in "--columns 21" "--columns 20 --rows 61" "--columns 20 --format html"; do
        # shellcheck disable=SC2086
        run coverage --in tall.csv $rows
        same "a picture of 1201 PDUs with $rows, nothing is said of rows" 0 "$(grep -c -e '--rows' err || true)"
    done
}

row_numbers() {
    sed -n 's/.*class="q" x="56" y="[0-9]*">\([0-9]*\)<.*/\1/p' out | tr '\n' ' '
}

# The overview: a bar for each stretch, as high as the share of its PDUs that were lost or refused.
check_page_strip() {
    local pdu
    {
        echo "$seven"
        for ((pdu = 0; pdu < 40; pdu += 1)); do
            case $pdu in 0 | 1 | 2 | 3 | 4) echo "$pdu,lost,,,,0,0" ;; 10 | 11) echo "$pdu,refused,4,96,x,0,0" ;; *) echo "$pdu,received,0,96,,0,0" ;; esac
        done
    } >strip.csv
    run coverage --in strip.csv --format html
    same "the overview by PDUs" "Overview: PDUs lost or refused, in each 10 PDUs" "$(overview_of)"
    same "the overview's bars" 'class="f" x="64" y="10" width="249" height="60"
class="l" x="64" y="10" width="249" height="60"
class="f" x="314" y="46" width="249" height="24"' "$(sed -n '/class="strip"/,/<\/svg>/p' out | sed -n 's/<rect \(class="[lf]".*\)\/>/\1/p')"
    same "the overview's numbers" "50 % 0 % 0 10 20 30 " "$(sed -n '/class="strip"/,/<\/svg>/p' out | sed -n 's/.*<text.*>\(.*\)<\/text>/\1/p' | tr '\n' ' ')"
    run coverage --in strip.csv --format html --pdu-ms 1000
    same "the overview by seconds" "Overview: PDUs lost or refused, in each 10 s" "$(overview_of)"
    run coverage --in long.csv --format html --pdu-ms 60000
    same "the overview by two minutes" "Overview: PDUs lost or refused, in each 2 min" "$(overview_of)"
    run coverage --in long.csv --format html --pdu-ms 30000
    same "the overview by minutes" "Overview: PDUs lost or refused, in each 1 min" "$(overview_of)"
    check_page_bars
}

# However long a drive is, it has at most some hundred bars, and the number under the last one ends within the strip's picture: it stands in the middle below its mark,
# and a digit takes 6 at the most.
check_page_bars() {
    local ms bars last
    for ms in 1 7600 7700 23000 23100 46100 46200 60000; do
        run coverage --in long.csv --format html --pdu-ms "$ms"
        bars=$(sed -n '/class="strip"/,/<\/svg>/p' out | grep -c '<rect class="l"' || true)
        same "the bars of PDUs of $ms ms, $bars" yes "$([ "$bars" -ge 1 ] && [ "$bars" -le 101 ] && echo yes || echo no)"
        last=$(sed -n '/class="strip"/,/<\/svg>/s/<text class="t" text-anchor="middle" x="\([0-9]*\)" y="84">\(.*\)<\/text>/\1 \2/p' out | tail -n 1)
        same "the last number of PDUs of $ms ms, $last" yes "$(awk '{ print $1 + 3 * length($2) <= 1088 && NF == 2 ? "yes" : "no" }' <<<"$last")"
    done
}

overview_of() {
    sed -n 's/<h2>\(Overview.*\)<\/h2>/\1/p' out
}

# The longest run of PDUs lost or refused, and its time.
check_page_longest() {
    run coverage --in strip.csv
    same "the longest run" "Longest run of PDUs lost or refused: 5, PDU 0 to 4" "$(sed -n 's/.*>\(Longest.*\)<.*/\1/p' out)"
    sed -i 's/^6,received,0,96,/6,refused,4,96,x/; s/^7,received,0,96,/7,lost,,,/; s/^8,received,0,96,/8,lost,,,/; s/^9,received,0,96,/9,lost,,,/' strip.csv
    run coverage --in strip.csv --pdu-ms 1500
    same "the longest run, of both kinds, with its time" "Longest run of PDUs lost or refused: 6, PDU 6 to 11, at 0:00:09, for 9.0 s" "$(sed -n 's/.*>\(Longest.*\)<.*/\1/p' out)"
    printf '%s\n' "$seven" 0,received,0,96,,0,0 >strip.csv
    run coverage --in strip.csv
    same "no PDU lost or refused, no longest run" 0 "$(grep -c Longest out || true)"
}
