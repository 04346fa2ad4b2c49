# PDUs to the packet log: refused and lost ones, the CSV's last line, and PDUs that come twice or out of order. Sourced by run.sh.

# What is said of a mode and stream that the table has not: in the words of generate.
unlisted_line() {
    echo "barzhilup log: refused with 5: $(generate_words --mode 4)"
}

# A mode and stream that the table has not.
check_unlisted() {
    local line
    line=$(unlisted_line)
    stops "$line" log --mode 4 --in sent --out new
    stops "$line" log --mode 5 --in sent
    there "log of an unlisted mode" no new
    stops "$line" log --stream 1 --in sent
    stops "$line" log --stream=2 --mode=1 --in=none
}

# The PDUs of a drive, five of them refused: of lengths that no PDU has, of another mode and stream, and of zeros.
make_drive() {
    "$program" generate --in one --mode 1 --stream 1 --length 96 2>/dev/null >other
    { pdus 0 1; record 95; pdus 1 1; record 0; record 1; cat other; record 96; pdus 2 1; } >drive
}

# Lost and refused PDUs in a drive that goes on.
check_drive() {
    make_drive
    run log --in drive --format csv
    cp out drive.csv
    same "the PDUs of a drive, refused and lost ones too" "0 received 1 refused 2 received 3 lost 4 refused 5 refused 6 refused 7 refused 8 received" \
        "$(sed -n 's/^\([0-9]*\),\(received\|lost\|refused\),.*/\1 \2/p' out | tr '\n' ' ' | sed 's/ $//')"
    has_entry "a PDU of 95 bytes" "1,refused,3,95,length not 96 to 20480" out
    has_entry "it is marked lost" "1,note,0,,lost" out
    has_entry "a PDU of one byte" "4,refused,3,1,length not 96 to 20480" out
    has_entry "it is marked lost, too" "4,note,0,,lost" out
    has_entry "a PDU of another mode is marked lost" "5,note,0,,lost" out
    has_entry "and so is the second" "6,note,0,,lost" out
    has_entry "a PDU of zeros" "7,refused,9,96,La out of place" out
    has_entry "a PDU of another mode and stream" "5,refused,6,96,mode and stream not those asked for" out
    has_entry "a second one" "6,refused,6,96,mode and stream not those asked for" out
    ended "with refused PDUs" 0 log
    check_drive_said
}

# What is said of that drive: a line for each refused PDU, and the counts by number.
check_drive_said() {
    same "refused PDUs, what is said" "barzhilup log: PDU 1: refused with 3: length not 96 to 20480
barzhilup log: PDU 4: refused with 3: length not 96 to 20480
barzhilup log: PDU 5: refused with 6: mode and stream not those asked for (mode 1, stream 1 came)
barzhilup log: PDU 6: refused with 6: mode and stream not those asked for (mode 1, stream 1 came)
barzhilup log: PDU 7: refused with 9: La out of place
barzhilup log: PDUs 9: received 3, lost 1, refused 5
barzhilup log:   refused with 3 (length not 96 to 20480): 2
barzhilup log:   refused with 6 (mode and stream not those asked for): 2
barzhilup log:   refused with 9 (La out of place): 1" "$(head -n 9 err)"
    run coverage --in drive.csv
    same "its picture" "barzhilup coverage: PDUs 9: received 3 (33.3 % of PDUs)" "$(head -n 1 err | cut -d , -f 1)"
    ended "its picture" 0 coverage
}

# After five refused PDUs the others are only counted; in the log each has its line.
check_many_refused() {
    { pdus 0 1; records 4 95; pdus 1 1; records 3 96; pdus 2 1; record 95; } >drive
    run log --in drive --format csv
    same "eight refused PDUs in the log" 8 "$(grep -c ',refused,' out)"
    same "eight refused PDUs, what is said" "barzhilup log: PDU 1: refused with 3: length not 96 to 20480
barzhilup log: PDU 2: refused with 3: length not 96 to 20480
barzhilup log: PDU 3: refused with 3: length not 96 to 20480
barzhilup log: PDU 4: refused with 3: length not 96 to 20480
barzhilup log: PDU 6: refused with 9: La out of place
barzhilup log: further refused PDUs are counted only
barzhilup log: PDUs 11: received 3, lost 0, refused 8
barzhilup log:   refused with 3 (length not 96 to 20480): 5
barzhilup log:   refused with 9 (La out of place): 3" "$(head -n 9 err)"
    ended "eight refused PDUs" 0 log
    check_none_received
    check_other_mode
}

# Five refused PDUs and none received: none is counted only, and the mode and the stream are asked about after the counts. With a PDU that is received
# they are not, nor with lost PDUs alone.
check_none_received() {
    local line="barzhilup log: no PDU was received: is this a file of PDUs of mode"
    { record 0; pdus 0 1; record 95; } >drive
    run log --in drive
    same "with a PDU received nothing is asked" 0 "$(grep -c 'no PDU was received' err || true)"
    records 3 0 >drive
    run log --in drive
    same "with lost PDUs alone nothing is asked" 0 "$(grep -c 'no PDU was received' err || true)"
    { record 0; record 95; } >drive
    run log --in drive --mode 2 --stream 1
    same "a lost and a refused PDU, the last line" "$line 2, stream 1?" "$(tail -n 1 err)"
    ended "a lost and a refused PDU" 0 log
    head -c -1 drive >part
    run log --in part
    same "a lost PDU and one that is cut, nothing is asked" 0 "$(grep -c 'no PDU was received' err || true)"
    records 5 95 >drive
    run log --in drive
    same "with five refused PDUs none is counted only" 0 "$(grep -c 'counted only' err || true)"
    same "five refused PDUs, the last line" "$line 0, stream 0?" "$(tail -n 1 err)"
    ended "five refused PDUs" 0 log
}

# PDUs of another mode after five that are refused: the first one's line is said, with the mode and the stream that came, and the others are counted.
check_other_mode() {
    local asked="barzhilup log: no PDU was received: is this a file of PDUs of mode 0, stream 0?"
    local came="refused with 6: mode and stream not those asked for (mode 1, stream 0 came)"
    { records 5 95; steps 0 1 2; } >other.drive
    run log --in other.drive
    same "PDUs of another mode after five, what is said" "barzhilup log: PDU 4: refused with 3: length not 96 to 20480
barzhilup log: PDU 5: $came
barzhilup log: further refused PDUs are counted only
barzhilup log: PDUs 8: received 0, lost 0, refused 8
barzhilup log:   refused with 3 (length not 96 to 20480): 5
barzhilup log:   refused with 6 (mode and stream not those asked for): 3" "$(sed -n 5,10p err)"
    same "PDUs of another mode after five, the last line" "$asked" "$(tail -n 1 err)"
    ended "PDUs of another mode after five" 0 log
    { records 7 95; steps 0 1 2; pdus 0 1; } >other.drive
    run log --in other.drive
    same "PDUs of another mode after seven, what is said" "barzhilup log: PDU 4: refused with 3: length not 96 to 20480
barzhilup log: further refused PDUs are counted only
barzhilup log: PDU 7: $came
barzhilup log: PDUs 11: received 1, lost 0, refused 10" "$(sed -n 5,8p err)"
    steps 0 1 2 3 4 5 6 >other.drive
    run log --in other.drive
    same "PDUs of another mode, how many are said" 5 "$(grep -c '^barzhilup log: PDU [0-9]*: refused with 6' err)"
    same "PDUs of another mode, the last line" "$asked" "$(tail -n 1 err)"
}

# A packet in eight PDUs, two of which are of another mode instead: the one-bit sequence fits again after them, and nothing is joined.
check_hole() {
    record 600 >big
    "$program" generate --in big --length 96 2>/dev/null >long
    run log --in long --format csv
    has_entry "a packet in eight PDUs" "7,packet,0,600," out
    { head -c 196 long; cat other; tail -c +393 long; } >holed
    run log --in holed --format csv
    same "PDUs with a hole" 8 "$(grep -c ',received,\|,refused,' out)"
    same "no packet is joined across PDUs of another mode" 0 "$(grep -c '[0-9],packet,' out || true)"
}

# The CSV's last line counts the PDUs, and stands only where all is logged.
check_last_line() {
    local many
    many=$(grep -c ',received,\|,lost,,,,,,,,\|,refused,' log.csv)
    same "the CSV's last line" "$(end_line "$many")" "$(tail -n 1 log.csv)"
    same "it stands once" 1 "$(grep -c ',end,' log.csv)"
    run log --in empty --format csv
    same "the CSV of no PDUs" "$title
$(end_line 0)" "$(cat out)"
    run log --in drive --format csv
    same "the CSV's last line with refused PDUs" "$(end_line 5)" "$(tail -n 1 out)"
    head -c -1 damaged >part
    run log --in part --format csv
    same "no last line in the CSV of a cut file" 0 "$(grep -c ',end,' out || true)"
    same "no last line in the text" 0 "$(grep -c 'end' log.text || true)"
}

# Makes the log of PDUs of a mode, which deliver packets of these numbers in this order, and draws it: the summary and the picture have delivered and missing by them.
draws() { # FILE MODE NUMBER...
    draws_once "" "$@"
}

# The same where PDUs came twice or out of turn, so that the picture has figures of its own, in which each packet counts once.
draws_once() { # "DELIVERED MISSING" FILE MODE NUMBER...
    local once=$1 file=$2 mode=$3 wanted
    shift 3
    wanted=$(counted_loss <(printf '0,packet,,,,%s\n' "$@"))
    run log --in "$file" --mode "$mode" --format csv
    ended "the log of $file" 0 log
    # shellcheck disable=SC2086
    has_line "the log of $file, delivered and missing" "$(loss_line $wanted)" err
    cp out "$file.csv"
    run coverage --in "$file.csv"
    ended "the picture of $file" 0 coverage
    same "the picture of $file, delivered and missing" "$(loss_said "${once:-$wanted}")" "$(said_loss)"
}

# A PDU that comes twice, and PDUs out of order: in the log the same number again adds 63, one that is behind by k adds 63 - k; in the picture they count once, if they
# are told. A PDU that is lost or refused, or that is not there, has one packet here.
check_order() {
    steps 0 1 2 3 4 5 6 7 >ordered
    draws ordered 1 0 1 2 3 4 5 6 7
    same "PDUs in order: none is missing" "packets delivered 8, missing 0 (0.0 % of both)" "$(said_loss)"
    steps 0 1 2 2 3 4 5 6 7 >twice
    draws_once "8 0" twice 1 0 1 2 2 3 4 5 6 7
    steps 0 1 3 2 4 5 6 7 >swapped
    draws_once "8 0" swapped 1 0 1 3 2 4 5 6 7
    { steps 0 1 2; record 0; steps 4 5 6 7; } >lost
    draws lost 1 0 1 2 4 5 6 7
    same "a lost PDU adds its packet" "packets delivered 7, missing 1 (12.5 % of both)" "$(said_loss)"
    steps 0 1 2 4 5 6 7 >unmarked
    draws unmarked 1 0 1 2 4 5 6 7
    { steps 0 1 1 2; record 0; record 0; steps 5 6 6; } >both
    draws_once "5 2" both 1 0 1 1 2 5 6 6
    { records 3 0; steps 3 4 5; records 2 0; } >ends
    draws ends 1 3 4 5
    same "nothing is missing at the ends" "packets delivered 3, missing 0 (0.0 % of both)" "$(said_loss)"
    made bits generate --in eight --length 96
    bits 0 1 3 2 4 5 6 7 >swapped
    draws_once "8 0" swapped 0 0 1 3 2 4 5 6 7
    bits 0 1 2 3 2 3 4 5 6 7 >pair
    draws pair 0 0 1 2 3 2 3 4 5 6 7
    { bits 0 1 2; record 0; bits 4 4 5 6; } >lost
    draws_once "6 1" lost 0 0 1 2 4 4 5 6
    { bits 0 1 2; record 95; bits 2 3 4; } >repeated
    draws repeated 0 0 1 2 2 3 4
}

# Stored outputs: the programs give the same bytes as when they were stored.
check_stored() {
    run generate --in "$data/generate.packets" --length 96
    same_file "stored PDUs" "$data/generate.pdus" out
    run channel --in "$data/channel.pdus" --seed 7 --loss 150 --burst 3
    same_file "stored damage: the same seed gives the same on every machine" "$data/channel.received" out
    run log --in "$data/log.pdus" --format csv
    same_file "stored log" "$data/log.csv" out
    run coverage --in "$data/drive.csv" --columns 20 --title 'Up & down the hill <test>'
    same_file "stored picture" "$data/drive.svg" out
    run coverage --in "$data/counted.csv" --columns 20 --title 'Up & down the hill <test>'
    same_file "the same picture, from the columns of older logs" "$data/drive.svg" out
    run coverage --in "$data/older.csv" --columns 20 --title 'Up & down the hill <test>'
    same_file "stored picture of a log without a loss column" "$data/older.svg" out
}
