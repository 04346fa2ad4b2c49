# What a drive's HTML page tells of its PDUs: their lengths, and the texts of PSD where they change. Sourced by run.sh.

# The PDU length that a page tells.
length_told() {
    sed -n 's/<p><b>PDU length<\/b>\(.*\)<\/p>/\1/p' out
}

# The PDU length is that of received PDUs, or the least and the greatest; nothing where none is told. The table has what is told, and the lines after the first.
check_page_lengths() {
    local lines wanted
    while IFS='|' read -r wanted lines; do
        { echo "$title"; printf '%b' "$lines"; } >lengths.csv
        run coverage --in lengths.csv --format html
        ended "PDUs of $wanted" 0 coverage
        same "the PDU length of $lines" "$wanted" "$(length_told)"
    done < <(grep -v '^#' "$data/particulars.lengths")
    printf '%s\n' "$older_title" 0,received,0,1200,,0,0 >lengths.csv
    run coverage --in lengths.csv --format html
    same "the PDU length of an older log" "1200 bytes" "$(length_told)"
    run coverage --in lengths.csv
    same "no PDU length in a picture by itself" 0 "$(grep -c 'PDU length' out || true)"
}

# A log in which each line of the input is a PDU with its text of PSD, as a field of the CSV; an empty line is one without PSD.
with_texts() {
    echo "$title"
    awk '{ print NR - 1 ",received,,0,,,96,,,,0,0,,," } $0 != "" { print NR - 1 ",psd,,,,,20,,,,,,0a0b0c0d," $0 "," }'
}

# The rows of the list of texts.
text_rows() {
    sed -n '/<table>/,/<\/table>/s/<tr><td>\(.*\)<\/td><\/tr>/\1/p' out
}

# PSD texts are listed where they change, as text.
check_page_psd() {
    printf '%s\n' '' '"A song"' '"A song"' '' '"A song"' '"One, two"' '"<b> & ""quoted"""' '"A song"' '""' '"A song"' >texts
    { with_texts <texts; end_line 10; } >texts.csv
    run coverage --in texts.csv --format html
    ended "PSD texts" 0 coverage
    same "PSD texts, where they change" '1</td><td>A song
5</td><td>One, two
6</td><td>&lt;b&gt; &amp; &quot;quoted&quot;
7</td><td>A song' "$(text_rows)"
    same "PSD texts, all are listed" 0 "$(grep -c 'not listed' out || true)"
    check_page_whole "PSD texts"
    run coverage --in texts.csv --format html --pdu-ms 60000
    same "PSD texts, with times" '1</td><td>0:01:00</td><td>A song
5</td><td>0:05:00</td><td>One, two' "$(text_rows | sed -n 1,2p)"
    check_page_whole "PSD texts, with times"
}

# What is no text, and what is cut, is not listed; a picture by itself has no list.
check_page_psd_none() {
    printf '"Sm\xf8rrebr\xf8d"\n"Sm\xc3\xb8rrebr\xc3\xb8d"\n' | with_texts >texts.csv
    printf '1,psd,,,,,20,,,,,,0a0b0c0d,"A cut te' >>texts.csv
    run coverage --in texts.csv --format html
    same "PSD texts, one that is not UTF-8, and a line that is cut" "1</td><td>$(printf 'Sm\xc3\xb8rrebr\xc3\xb8d')" "$(text_rows)"
    printf '%s\n' "$older_title" 0,received,0,96,,0,0 0,psd,,20,,, >texts.csv
    run coverage --in texts.csv --format html
    ended "no PSD texts" 0 coverage
    same "no PSD texts, no list" 0 "$(grep -c '<table\|PSD' out || true)"
    run coverage --in log.csv --format html
    same "the PSD text of a drive" "$(sed -n 's/^\([0-9]*\),psd,.*,"\(.*\)",$/\1<\/td><td>\2/p' log.csv | sed -n 1p)" "$(text_rows)"
    same "the PSD text of a drive is one" 1 "$(text_rows | grep -c 'Song by Singer' || true)"
    run coverage --in log.csv
    same "no PSD texts in a picture by itself" 0 "$(grep -c 'PSD\|Song' out || true)"
}

# At most 40 texts are listed, and fewer where they are very long; how many are not is said.
check_page_psd_many() {
    local ands rows
    seq 40 | sed 's/.*/"Song &"/' | with_texts >texts.csv
    run coverage --in texts.csv --format html
    same "40 PSD texts" "40 0" "$(text_rows | wc -l) $(grep -c 'not listed' out || true)"
    seq 1000 | sed 's/.*/"Song &"/' | with_texts >texts.csv
    run coverage --in texts.csv --format html
    same "1000 PSD texts" "40 <p>Changes that are not listed: 960</p>" "$(text_rows | wc -l) $(grep 'not listed' out || true)"
    check_page_whole "1000 PSD texts"
    ands=$(head -c 500 /dev/zero | tr '\0' '+')
    seq 40 | sed "s/.*/\"&$ands\"/" | tr + '&' | with_texts >texts.csv
    run coverage --in texts.csv --format html
    ended "long PSD texts" 0 coverage
    rows=$(text_rows | wc -l)
    same "long PSD texts, listed and not" 40 "$((rows + $(sed -n 's/.*not listed: \([0-9]*\)<.*/\1/p' out)))"
    same "long PSD texts, the last that is listed is whole" yes "$([ "$(text_rows | tail -n 1)" = "$((rows - 1))</td><td>$rows${ands//+/"&amp;"}" ] && echo yes || echo no)"
    check_page_whole "long PSD texts"
}
