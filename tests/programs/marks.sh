# Marked header bytes: the places that the channel writes, and a log with marks. Sourced by run.sh.

# A record of marks: the places.
marks() {
    printf '%b' "$(printf '\\x%02x\\x%02x' $(($# % 256)) $(($# / 256)))"
    if [ $# -gt 0 ]; then
        printf '%b' "$(printf '\\x%02x' "$@")"
    fi
}

# So many records of no marks.
no_marks() {
    records "$1" 0
}

# The records of marks that a file of PDUs of 300 bytes ought to have, by the bytes in which it differs from the file sent: for each PDU a line with
# its places. What is not in the first 96 bytes of a PDU is told by a place past 95.
altered_places() {
    cmp -l sent "$1" | awk -v pdus="$2" '
        { at = $1 - 1; pdu = int(at / 302); places[pdu] = places[pdu] " " (at % 302 - 2) }
        END { for (pdu = 0; pdu < pdus; pdu += 1) print substr(places[pdu], 2) }' || true
}

# The places of each record of a file of marks, a line for each.
places_of() {
    od -An -v -tu1 -w1 "$1" | awk '
        left == 0 && head == 0 { low = $1; head = 1; next }
        head == 1 { left = low + 256 * $1; head = 0; line = ""; if (left == 0) print line; next }
        { line = line (line == "" ? "" : " ") $1 + 0; left -= 1; if (left == 0) print line }'
}

# The count of PDUs in the file sent.
sent_pdus() {
    echo $(($(stat -c %s sent) / 302))
}

# What the channel marks is what it altered, and with or without marks it alters the same.
check_marks_written() {
    local seed bytes
    for seed in 1 2 3; do
        for bytes in 1 4 8 96; do
            rm -f came places
            run channel --in sent --seed "$seed" --loss 0 --damage 700 --bytes "$bytes" --out came --marks places
            ended "channel --bytes $bytes --marks" 0 channel
            same "channel --bytes $bytes --marks, seed $seed, the places" "$(altered_places came "$(sent_pdus)")" "$(places_of places)"
            cp err wanted.err
            run channel --in sent --seed "$seed" --loss 0 --damage 700 --bytes "$bytes"
            same_file "channel --bytes $bytes, seed $seed, without marks" came out
            same_file "channel --bytes $bytes, seed $seed, what is said without marks" wanted.err err
        done
    done
    check_marks_of_lost
}

# A PDU that is lost, or was before, has a record of no marks.
check_marks_of_lost() {
    rm -f came places
    { pdus 0 2; record 0; pdus 2 9; } >some
    run channel --in some --seed 5 --loss 400 --damage 1000 --bytes 3 --out came --marks places
    same "lost PDUs have no marks" "$(places_of came | sed 's/.* .*/PDU/; s/^$/lost/')" "$(places_of places | sed 's/.*[0-9].*/PDU/; s/^$/lost/')"
    same "some are lost" yes "$(places_of places | grep -qx '' && echo yes || echo no)"
    run channel --in empty --out came --marks places --force
    same_file "no PDUs have no marks" empty places
    ended "no PDUs have no marks" 0 channel
}

# Without the numbers of corrected bytes: what a log says of PDUs that are all received.
without_counts() {
    sed 's/,received,,[0-9],/,received,,,/' "$1"
}

# PDUs with up to eight altered header bytes: those with more than four are refused without marks; with them all are received, each with as many bytes
# corrected as were altered, and the log is that of PDUs without damage.
check_marks_worth() {
    local far
    rm -f came places
    run channel --in sent --seed 4 --loss 0 --damage 1000 --bytes 8 --out came --marks places
    far=$(places_of places | awk 'NF > 4' | wc -l)
    same "some PDUs have more than four altered bytes" yes "$([ "$far" -gt 5 ] && echo yes || echo no)"
    run log --in came --format csv
    same "without marks they are refused" "$far" "$(grep -c ',refused,,,4,,300,,,header beyond correction,' out || true)"
    same "without marks the others are received" $(($(sent_pdus) - far)) "$(grep -c ',received,' out || true)"
    run log --in came --marks places --format csv
    ended "with marks" 0 log
    same "with marks all are received, and bytes corrected are counted" "$(places_of places | awk '{ print NR - 1 ",received," NF ",300," }')" \
        "$(bare out | grep ',received,\|,refused,\|,lost,')"
    without_counts out >marked.csv
    run log --in sent --format csv
    same_file "with marks the log is that of PDUs without damage" marked.csv <(without_counts out)
    check_marks_formats
}

# Text and words, and the summary, of the same file.
check_marks_formats() {
    local bytes
    bytes=$(places_of places | awk '{ n += NF } END { print n }')
    run log --in came --marks places
    same "with marks, the text" "$(places_of places | awk '{ print "PDU " NR - 1 ": received, " NF " header byte" (NF == 1 ? "" : "s") " corrected" }')" \
        "$(grep '^PDU' out)"
    same "with marks, the counts" "barzhilup log: PDUs $(sent_pdus): received $(sent_pdus), lost 0, refused 0
barzhilup log: headers corrected $(sent_pdus), bytes corrected $bytes" "$(head -n 2 err)"
    run log --in came --marks places --format words
    cp out wanted
    run log --in sent --format words
    same_file "with marks, the words" wanted out
    run log --in sent --marks <(no_marks "$(sent_pdus)") --format words
    same_file "with no place marked, the words" wanted out
}

# Marks on bytes that are right cost as much as on wrong ones: seven of them leave no room for a byte that is wrong and not marked.
check_marks_bound() {
    rm -f came places
    run channel --in sent --seed 9 --loss 0 --damage 1000 --bytes 1 --out came --marks places
    head -c 302 came >one.came
    local wrong_at
    wrong_at=$(places_of places | head -n 1)
    run log --in one.came --marks <(marks $(others_than "$wrong_at" 6)) --format csv
    has_entry "six marks and a wrong byte" "0,received,1,300," out
    run log --in one.came --marks <(marks $(others_than "$wrong_at" 7)) --format csv
    has_entry "seven marks and a wrong byte" "0,refused,4,300,header beyond correction" out
    run log --in one.came --marks <(marks "$wrong_at" $(others_than "$wrong_at" 7)) --format csv
    has_entry "eight marks, one of them on the wrong byte" "0,received,1,300," out
    run log --in one.came --marks <(marks "$wrong_at") --format csv
    has_entry "the wrong byte marked" "0,received,1,300," out
}

# So many places, from 0 on, without one.
others_than() {
    local place many=$2
    for ((place = 0; many > 0; place += 1)); do
        if [ "$place" != "$1" ]; then
            echo "$place"
            many=$((many - 1))
        fi
    done
}

# Number 19, in its place among the others: a line for each, with the PDU's record, its marks, and what the log says of it.
check_marks_refused() {
    local words="over eight marks or one over 95 or repeated"
    pdus 0 1 >good
    marks_say "nine marks" good "0,refused,19,300,$words" 0 1 2 3 4 5 6 7 8
    marks_say "place 96" good "0,refused,19,300,$words" 96
    marks_say "place 255" good "0,refused,19,300,$words" 3 255
    marks_say "a place twice" good "0,refused,19,300,$words" 7 3 7
    marks_say "two hundred marks" good "0,refused,19,300,$words" $(seq 0 199)
    marks_say "three hundred marks" good "0,refused,19,300,$words" $(seq 300 | awk '{ print $1 % 95 }')
    marks_say "eight marks, and 95 among them" good "0,received,0,300," 95 0 1 2 3 4 5 94
    record 95 >short
    marks_say "a PDU of 95 bytes with nine marks" short "0,refused,3,95,length not 96 to 20480" 0 1 2 3 4 5 6 7 8
    run channel --in good --loss 0 --damage 1000 --bytes 96 --seed 1
    cp out beyond
    marks_say "a header beyond correction" beyond "0,refused,4,300,header beyond correction" 1
    marks_say "a header beyond correction with a place twice" beyond "0,refused,19,300,$words" 1 1
    record 0 >lost
    marks_say "a lost PDU with nine marks" lost "0,lost,,," 0 1 2 3 4 5 6 7 8
}

# Checks the log's line of the one PDU of a file, with marks; where it is refused, what is said of it and that it is marked lost.
marks_say() {
    local what=$1 file=$2 line=$3
    shift 3
    marks "$@" >places
    run log --in "$file" --marks places --format csv
    ended "$what" 0 log
    has_entry "$what" "$line" out
    case $line in
        *,refused,*)
            has_entry "$what: it is marked lost" "0,note,0,,lost" out
            same "$what: what is said" "barzhilup log: PDU 0: refused with $(cut -d , -f 3 <<<"$line"): $(cut -d , -f 5 <<<"$line")" "$(head -n 1 err)"
            has_line "$what: the summary" "barzhilup log:   refused with $(cut -d , -f 3 <<<"$line") ($(cut -d , -f 5 <<<"$line")): 1" err
            ;;
    esac
}

# The first PDU of the file other, of mode 1 and stream 1, with so many bytes from one on altered, and its second one.
altered_other() {
    head -c $((2 + $1)) other
    head -c $((2 + $1 + $2)) other | tail -c "$2" | tr '\0-\377' '\1-\377\0'
    tail -c +$((3 + $1 + $2)) other
}

# A PDU of another mode whose header is corrected by its marks: the mode and the stream that came are those of the corrected header.
check_marks_other_mode() {
    run log --in other
    cp err wanted
    altered_other 0 8 >came
    { marks 0 1 2 3 4 5 6 7; no_marks 1; } >places
    run log --in came
    has_line "eight wrong bytes of a PDU of another mode, without marks" "barzhilup log: PDU 0: refused with 4: header beyond correction" err
    run log --in came --marks places
    same_file "eight wrong bytes of a PDU of another mode, marked" wanted err
    altered_other 8 6 >came
    { marks 8 9 10 11 12 13; no_marks 1; } >places
    run log --in came --marks places
    same_file "all of its control word wrong, and marked" wanted err
}

# A file of marks with fewer records than the recording, with more, or cut; the log has the PDUs before, and the CSV no last line.
check_marks_files() {
    pdus 0 3 >three
    run log --in three --format csv
    cp out three.csv
    no_marks 2 >places
    marks_stop "places: ends before the marks of PDU 2" 2 three
    no_marks 4 >places
    marks_stop "places: has marks of more than the 3 PDUs" 3 three
    { no_marks 3; printf '\x01'; } >places
    marks_stop "places: has marks of more than the 3 PDUs" 3 three
    { no_marks 1; printf '\x02\x00\x05'; } >places
    marks_stop "places: ends inside the marks of PDU 1" 1 three
    { no_marks 1; printf '\x02'; } >places
    marks_stop "places: ends inside the marks of PDU 1" 1 three
    : >places
    marks_stop "places: ends before the marks of PDU 0" 0 three
    mkdir -p folder
    rm places
    run log --in three --marks folder --format csv
    said "a directory as marks" 1 log "barzhilup log: folder: Is a directory
$(nothing_of log)"
    stops "barzhilup log: none: No such file or directory" log --in three --marks none --out new
    there "without its marks" no new
    head -c 700 sent >part
    no_marks 9 >places
    run log --in part --marks places --format csv
    same "a cut recording with marks for more" "barzhilup log: part: ends inside the record of PDU 2" "$(head -n 1 err)"
    ended "a cut recording with marks for more" 1 log
    run log --in empty --marks empty --format csv
    same "no PDUs and no marks" "$title
$(end_line 0)" "$(cat out)"
    ended "no PDUs and no marks" 0 log
}

# Checks the log of three PDUs whose marks are not right: what is said first, after how many PDUs, and the file of PDUs.
marks_stop() {
    run log --in "$3" --marks places --format csv
    same "marks that are not right, what is said: $1" "barzhilup log: $1
barzhilup log: PDUs $2: received $2, lost 0, refused 0" "$(head -n 2 err)"
    ended "marks that are not right: $1" 1 log
    same "marks that are not right, the log: $1" "$(awk -F , -v many="$2" 'NR == 1 || $1 != "" && $1 < many' three.csv)" "$(cat out)"
}

# Marks on standard input and output.
check_marks_dashes() {
    rm -f came places
    run channel --in sent --seed 4 --loss 0 --damage 1000 --bytes 8 --out came --marks places
    run channel --in sent --seed 4 --loss 0 --damage 1000 --bytes 8 --out new --marks -
    same_file "marks on standard output" places out
    same_file "marks on standard output, the PDUs" came new
    rm new
    run log --in came --marks places
    cp out wanted
    run log --in came --marks - <places
    same_file "marks on standard input" wanted out
    ended "marks on standard input" 0 log
    run log --marks places <came
    same_file "PDUs on standard input, and marks" wanted out
    wrong "barzhilup log: --marks: standard input has the PDUs" log --marks -
    wrong "barzhilup log: --marks: standard input has the PDUs" log --marks=- --in - --out new
    wrong "barzhilup channel: --marks: standard output has the PDUs" channel --marks -
    wrong "barzhilup channel: --marks: standard output has the PDUs" channel --marks=- --in sent --out -
    run_to /dev/full channel --in sent --marks - --out new
    said "marks to a full device" 1 channel "barzhilup channel: standard output: No space left on device
$(nothing_of channel)"
    rm new
    run log --in came --marks <(head -c 30 places; sleep 0.1; tail -c +31 places)
    same_file "marks that come in parts" wanted out
}

# The file of marks is made as that of --out is, and neither is left where the other is not made.
check_marks_made() {
    rm -f new places places~
    echo old >places
    stops "$(taken channel places)" channel --in sent --out new --marks places
    same "a name of marks that is taken" old "$(cat places)"
    there "marks whose name is taken" no new
    run channel --in sent --out new --marks places --force
    ended "marks with --force" 0 channel
    has_line "marks with --force" "barzhilup channel: places: renamed to places~" err
    same "marks with --force, the old file" old "$(cat places~)"
    there "marks with --force" yes new
    rm places places~
    stops "$(taken channel new)" channel --in sent --out new --marks places
    there "the marks of PDUs whose name is taken" no places
    stops "barzhilup channel: none/places: No such file or directory" channel --in sent --out other.new --marks none/places
    there "marks in no directory" no other.new
    stops "$(taken channel both.new)" channel --in sent --out both.new --marks both.new
    there "PDUs and marks of one name" no both.new
    stops "barzhilup channel: none: No such file or directory" channel --in none --out other.new --marks places
    there "marks without PDUs" no places
    echo old >./-
    stops "$(taken channel new)" channel --in sent --out new --marks -
    same "marks on standard output leave a file called -" old "$(cat ./-)"
    rm new ./-
}
