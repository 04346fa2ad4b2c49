# Two recordings of one drive: what the pair gives and what each gives alone, refused pairs, files that are not of one length, and the picture. Sourced by run.sh.

# The PDUs of the file sent, those with an even number or an odd one as they are and the others as not come.
every_second() { # 0 or 1
    local pdu
    for ((pdu = 0; pdu < $(sent_pdus); pdu += 1)); do
        if [ $((pdu % 2)) = "$1" ]; then pdus "$pdu" 1; else record 0; fi
    done
}

# A record of a file of PDUs of 300 bytes with the byte at a place of the PDU altered.
altered() { # FILE PDU PLACE
    local at=$((302 * $2 + 2 + $3))
    head -c $((302 * $2 + 302)) "$1" | tail -c 302 | head -c $((2 + $3))
    head -c $((at + 1)) "$1" | tail -c 1 | tr '\0-\377' '\1-\377\0'
    head -c $((302 * $2 + 302)) "$1" | tail -c $((299 - $3))
}

# The lines of packets of a CSV, sorted.
packets_of() {
    { grep '[0-9],packet,' "$1" || true; } | sort
}

# The line of the summary for what a file gives alone, from what its own log says: first or second, and the summary of that log.
alone_line() {
    local came received headers bytes packets missing
    received=$(sed -n 's/.*: received \([0-9]*\),.*/\1/p' "$2")
    came=$((received + $(sed -n 's/.*, refused \([0-9]*\)$/\1/p' "$2")))
    read -r headers bytes < <(sed -n 's/.*headers corrected \([0-9]*\), bytes corrected \([0-9]*\)/\1 \2/p' "$2")
    packets=$(sed -n 's/.*: packets \([0-9]*\),.*/\1/p' "$2")
    missing=$(sed -n 's/.*: delivered [0-9]*, missing \([0-9]*\);.*/\1/p' "$2")
    echo "barzhilup log: $1 copies alone: PDUs came $came, received $received; headers corrected $headers, bytes corrected $bytes; packets $packets, missing $missing"
}

# A file with itself: the log is that of the file alone, and either copy will do.
check_second_same() {
    run log --in sent --format words
    cp out wanted
    run log --in sent --second sent --format words
    same_file "a file with itself, the words" wanted out
    ended "a file with itself" 0 log
    run log --in sent --format csv
    sed 's/^\([0-9]*,received,\),/\1either,/' out >wanted
    run log --in sent --second sent --format csv
    same_file "a file with itself, the CSV" wanted out
    run log --in sent
    sed 's/ corrected$/ corrected, from either copy/' out >wanted
    run log --in sent --second sent
    same_file "a file with itself, the text" wanted out
    run log --in sent
    { cat err; alone_line first err; alone_line second err; } >wanted
    run log --in sent --second sent
    same "a file with itself, what is said" "$(cat wanted)" "$(grep -v 'pieces taken' err)"
    same "a file with itself, the pieces" "barzhilup log: pieces taken from the first copy 0, from the second 0, alike in both" \
        "$(grep 'pieces taken' err | sed 's/ [0-9]*$//')"
}

# Each receiver misses the PDUs that the other has: the pair has all.
check_second_turns() {
    every_second 0 >even
    every_second 1 >odd
    run log --in sent --format words
    cp out wanted
    run log --in even --second odd --format words
    same_file "PDUs in turns, the words" wanted out
    run log --in even --second odd --format csv
    same "PDUs in turns, where they are from" "$(awk -v many="$(sent_pdus)" 'BEGIN { for (pdu = 0; pdu < many; pdu += 1) print pdu "," (pdu % 2 ? "second" : "first") " copy" }')" \
        "$(bare out | sed -n 's/^\([0-9]*\),received,0,300,\(.*\)/\1,\2/p')"
    ended "PDUs in turns" 0 log
    run log --in odd --second even --format csv
    same "PDUs in turns, the other way round" "0,received,0,300,second copy" "$(bare out | sed -n 2p)"
    run log --in even --second even --format csv
    cp out wanted
    run log --in even --format csv
    same_file "lost in both" <(sed 's/,first,\|,either,/,,/' wanted) out
}

# Two drives over a bad channel: the pair's log has every packet that either has alone, and tells what each gives.
check_second_drives() {
    local seed more=0
    for seed in 1 2 3 4 5 6; do
        rm -f one.pdus two.pdus
        run channel --in sent --seed "$seed" --loss 200 --damage 700 --out one.pdus
        run channel --in sent --seed $((seed + 100)) --loss 200 --damage 700 --out two.pdus
        run log --in one.pdus --format csv
        packets_of out >first.packets
        alone_line first err >wanted
        run log --in two.pdus --format csv
        packets_of out >second.packets
        alone_line second err >>wanted
        run log --in one.pdus --second two.pdus --format csv
        ended "a pair of drives, seed $seed" 0 log
        packets_of out >pair.packets
        same "a pair of drives, seed $seed: no packet of either is missing" "" "$(sort -u first.packets second.packets | comm -23 - pair.packets)"
        same "a pair of drives, seed $seed: what each gives alone" "$(cat wanted)" "$(grep ' alone: ' err)"
        if [ "$(wc -l <pair.packets)" -gt "$(sort -u first.packets second.packets | wc -l)" ]; then more=$((more + 1)); fi
        check_second_counted "$seed"
    done
    same "some pairs have packets that neither has alone" yes "$([ "$more" -gt 0 ] && echo yes || echo no)"
}

# The header bytes corrected of a pair are those of the better copy, and its pieces are counted: checked against the copies as they were sent.
check_second_counted() {
    same "a pair of drives, seed $1: bytes corrected" "$(awk -F , '$2 == "received" { n += $4 } END { print n + 0 }' out)" \
        "$(sed -n 's/.*bytes corrected \([0-9]*\)$/\1/p' err | head -n 1)"
    same "a pair of drives, seed $1: each received PDU has a copy" "$(grep -c ',received,' out)" "$(grep -c ',received,\(first\|second\|either\),' out)"
}

# Damaged pieces: each is taken from the copy in which its CRC is right. Places 120 and 220 lie in two pieces of PDU 0.
check_second_pieces() {
    run log --in sent --format words
    cp out wanted
    { altered sent 0 120; tail -c +303 sent; } >one.pdus
    { altered sent 0 220; tail -c +303 sent; } >two.pdus
    run log --in one.pdus --second two.pdus --format words
    same_file "a damaged piece in each copy, the words" wanted out
    run log --in one.pdus --second two.pdus --format csv
    has_entry "a damaged piece in each copy" "0,received,0,300,both copies" out
    has_entry "the next PDU" "1,received,0,300,either copy" out
    run log --in one.pdus --second sent --format csv
    has_entry "a damaged piece in the first copy" "0,received,0,300,second copy" out
    run log --in sent --second one.pdus --format csv
    has_entry "a damaged piece in the second copy" "0,received,0,300,first copy" out
    run log --in sent --second one.pdus
    has_line "a damaged piece in the second copy, the text" "PDU 0: received, 0 header bytes corrected, from the first copy" out
    run log --in one.pdus --format csv
    grep -v ',received,' out >wanted
    run log --in one.pdus --second one.pdus --format csv
    same_file "a piece that is damaged in both" wanted <(grep -v ',received,' out)
    has_entry "a piece that is damaged in both" "0,received,0,300,either copy" out
}

# A piece whose CRC is right in both copies and whose bytes differ: note 7.
check_second_differ() {
    { head -c 10 packets; printf '\x05'; tail -c +12 packets; } >packets.other
    run generate --in packets.other --length 300 --psd psd
    cp out other.sent
    run log --in sent --second other.sent --format csv
    has_entry "a piece that is right in both and differs, the CSV" "0,note,0,,copies differ" out
    has_entry "a piece that is right in both and differs, the PDU" "0,received,0,300,either copy" out
    has_line "a piece that is right in both and differs, the summary" "barzhilup log:   note copies differ: 1" err
    ended "a piece that is right in both and differs" 0 log
    cp out differ.csv
    run coverage --in differ.csv
    same "it counts as one with a wrong CRC in the picture" "wrong CRCs 1" "$(sed -n 's/.*\(wrong CRCs [0-9]*\).*/\1/p' err)"
    run log --in sent --second other.sent
    has_line "a piece that is right in both and differs, the text" "  note: copies differ, piece 0" out
}

# Pairs that are refused: what the log says of each.
check_second_refused() {
    "$program" generate --in one --mode 1 --stream 1 --length 96 2>/dev/null >other
    { pdus 0 1; pdus 1 1; record 95; record 95; record 95; record 0; pdus 5 1; head -c 98 other; pdus 7 1; } >one.pdus
    { pdus 0 1; pdus 2 1; pdus 2 1; record 96; record 95; record 95; record 0; pdus 6 1; head -c 98 other; } >two.pdus
    run log --in one.pdus --second two.pdus --format csv
    ended "refused pairs" 0 log
    has_entry "copies of two PDUs" "1,refused,20,300,copies differ in length or bytes 8 to La" out
    has_entry "the first has a wrong length" "2,received,0,300,second copy" out
    has_entry "the first has a wrong length, and the second is of zeros" "3,refused,9,96,La out of place" out
    has_entry "both lengths are wrong" "4,refused,4,95,header beyond correction" out
    has_entry "a wrong length alone" "5,refused,3,95,length not 96 to 20480" out
    has_entry "a copy alone" "6,received,0,300,first copy" out
    has_entry "the first of another mode" "7,refused,6,96,mode and stream not those asked for" out
    has_entry "the second of another mode" "8,refused,6,300,mode and stream not those asked for" out
    has_entry "it is marked lost" "8,note,0,,lost" out
    same "refused pairs, what is said" "barzhilup log: PDU 1: refused with 20: copies differ in length or bytes 8 to La
barzhilup log: PDU 3: refused with 9: La out of place
barzhilup log: PDU 4: refused with 4: header beyond correction
barzhilup log: PDU 5: refused with 3: length not 96 to 20480
barzhilup log: PDU 7: refused with 6: mode and stream not those asked for (mode 1, stream 1 came)
barzhilup log: further refused PDUs are counted only
barzhilup log: PDUs 9: received 3, lost 0, refused 6" "$(head -n 7 err)"
    { records 2 95; pdus 0 1; } >one.pdus
    { records 2 95; head -c 98 other; } >two.pdus
    run log --in one.pdus --second two.pdus
    has_line "the second of another mode, what came" "barzhilup log: PDU 2: refused with 6: mode and stream not those asked for (mode 1, stream 1 came)" err
    check_second_out_of_step
}

# A file that lacks a record is out of step with the other: pairs are refused, and it is asked about.
check_second_out_of_step() {
    local line="barzhilup log: most pairs were refused with 20: does each file have a record for each PDU, also for those that did not come?"
    tail -c +303 sent >late
    run log --in sent --second late
    has_line "files out of step" "$line" err
    has_line "files out of step, the counts" "barzhilup log:   refused with 20 (copies differ in length or bytes 8 to La): $(($(sent_pdus) - 1))" err
    ended "files out of step" 0 log
    run log --in sent --second sent
    same "files in step" 0 "$(grep -c 'most pairs' err || true)"
}

# Files that are not of one length: what is missing did not come. A cut one is said so, and the other goes on.
check_second_lengths() {
    local many
    many=$(sent_pdus)
    pdus 0 3 >three
    run log --in sent --format words
    cp out wanted
    run log --in three --second sent --format words
    same_file "a shorter first file, the words" wanted out
    same "a shorter first file, what is said" "barzhilup log: three: has 3 of $many PDUs: the others count as not come" "$(head -n 1 err)"
    ended "a shorter first file" 0 log
    run log --in sent --second three --format csv
    same "a shorter second file, what is said" "barzhilup log: three: has 3 of $many PDUs: the others count as not come" "$(head -n 1 err)"
    same "a shorter second file, the last line" "$(end_line "$many")" "$(tail -n 1 out)"
    has_entry "a shorter second file, a PDU after its end" "3,received,0,300,first copy" out
    ended "a shorter second file" 0 log
    run log --in empty --second sent --format words
    same_file "an empty first file, the words" wanted out
    run log --in empty --second empty --format csv
    same "two empty files" "$title
$(end_line 0)" "$(cat out)"
    ended "two empty files" 0 log
    check_second_cut "$many"
}

check_second_cut() {
    head -c 700 sent >part
    run log --in part --second sent --format words
    same_file "a cut first file, the words" wanted out
    same "a cut first file, what is said" "barzhilup log: part: ends inside the record of PDU 2
barzhilup log: PDUs $1: received $1, lost 0, refused 0" "$(head -n 2 err)"
    ended "a cut first file" 1 log
    run log --in sent --second part --format csv
    same "a cut second file has no last line" 0 "$(grep -c ',end,' out || true)"
    same "a cut second file, what is said" "barzhilup log: part: ends inside the record of PDU 2" "$(head -n 1 err)"
    ended "a cut second file" 1 log
    run log --in sent --second folder
    same "a directory as second file" "barzhilup log: folder: Is a directory" "$(head -n 1 err)"
    ended "a directory as second file" 1 log
    stops "barzhilup log: none: No such file or directory" log --in sent --second none --out new
    there "without its second file" no new
    run_to /dev/full log --in sent --second sent
    same "a pair's log to a full device" "barzhilup log: standard output: No space left on device" "$(head -n 1 err)"
    ended "a pair's log to a full device" 1 log
}

# Standard input is one of the two files, and copies have no marks.
check_second_asked() {
    local before
    before=$(cksum sent damaged)
    run log --in sent --second damaged
    cp out wanted
    run log --second damaged <sent
    same_file "the first file on standard input" wanted out
    run log --in sent --second - <damaged
    same_file "the second file on standard input" wanted out
    ended "the second file on standard input" 0 log
    run log --in sent --second <(head -c 500 damaged; sleep 0.1; tail -c +501 damaged)
    same_file "a second file that comes in parts" wanted out
    same "what is read stays as it is" "$before" "$(cksum sent damaged)"
    wrong "barzhilup log: --second: standard input has the PDUs" log --second -
    wrong "barzhilup log: --second: standard input has the PDUs" log --second=- --in - --out new
    wrong "barzhilup log: --second: a pair takes no marks" log --in sent --second damaged --marks empty --out new
    there "asked wrongly" no new
}

# The picture of a pair's log: a stroke for each PDU that is not taken from either copy, a row of the legend, and the counts.
check_second_picture() {
    local first second both either
    run log --in even --second sent --format csv
    cp out pair.csv
    first=$(grep -c ',first,' pair.csv || true)
    second=$(grep -c ',second,' pair.csv || true)
    both=$(grep -c ',both,' pair.csv || true)
    either=$(grep -c ',either,' pair.csv || true)
    run coverage --in pair.csv
    ended "the picture of a pair" 0 coverage
    same "the picture of a pair, what is said" "taken from the first copy $first, the second $second, both $both, either $either" \
        "$(sed -n 's/.*; taken/taken/p' err)"
    same "the picture of a pair, strokes, and one in the legend" $((first + second + both + 1)) "$(grep -c 'class="a"' out || true)"
    same "the picture of a pair, the legend" 1 "$(grep -c ">from the first copy $first, second $second, both $both<" out || true)"
    run coverage --in log.csv
    same "the picture of one file has no strokes" 0 "$(cat out err | grep -c 'class="a"\|copy' || true)"
    printf 'pdu,kind,number,length,cause\n0,received,0,96,first copy\n1,received,2,96,second copy\n2,received,0,96,both copies\n3,received,0,96,either copy\n4,refused,20,96,copies differ in length or bytes 8 to La\n4,note,0,,lost\n5,received,0,96,third copy\n,end,6,,whole\n' >pair.csv
    run coverage --in pair.csv
    same "four kinds of copies" "taken from the first copy 1, the second 1, both 1, either 1" "$(sed -n 's/.*; taken/taken/p' err)"
    same "their strokes" 'M64 77h9
M74 89h9
M84 77h9m-9 12h9' "$(grep 'class="a"' out | head -n 3 | sed 's/.* d="\([^"]*\)".*/\1/')"
}
