# The register that CRCs start with (document 02, Ask 2): PDUs written and logged with one register, and with two that differ. Sourced by run.sh.

# How many pieces the PDUs of a file have, of 300 bytes each: bits 6-1 of byte 12, after the record's two bytes.
pieces_of() {
    od -An -v -tu1 -w302 "$1" | awk '{ n += int($15 / 2) % 64 } END { print n + 0 }'
}

# What is said where every CRC is wrong, or nearly every one: the register that was asked for.
all_wrong_line() {
    echo "barzhilup log: all CRCs were wrong: is $1 the start of this file's CRCs (--crc-start)?"
}

nearly_all_wrong_line() {
    echo "barzhilup log: nearly all CRCs were wrong: is $1 the start of this file's CRCs (--crc-start)?"
}

# A check that nothing is said of all CRCs, nor of nearly all, in the last log.
not_all_wrong() {
    same "$1: nothing is said of all CRCs" 0 "$(grep -c 'all CRCs' err || true)"
}

# So many copies of a file.
copies() {
    local turn
    for ((turn = 0; turn < $1; turn += 1)); do
        cat "$2"
    done
}

# The CRC byte of a packet of these bytes, written in one piece with this register, in hexadecimal: the piece stands from byte 16 of the PDU on.
crc_written() {
    local bytes=$1 count=$((${#1} / 4))
    { printf '%b' "$(printf '\\x%02x\\x00' "$count")"; printf '%b' "$bytes"; } >packet
    run generate --in packet --length 96 --crc-start "$2"
    od -An -v -tx1 -j $((2 + 16 + count)) -N 1 out | tr -d ' \n'
}

# Known values: document 01's examples (d) to (f) at 0, and the same pieces and the digits 1 to 9 at 255.
check_register_values() {
    same "01 at 0" 31 "$(crc_written '\x01' 0)"
    same "80 at 0" 7a "$(crc_written '\x80' 0)"
    same "01 00 at 0" f4 "$(crc_written '\x01\x00' 0)"
    same "01 at 255" 9d "$(crc_written '\x01' 255)"
    same "80 at 255" d6 "$(crc_written '\x80' 255)"
    same "01 00 at 255" 75 "$(crc_written '\x01\x00' 255)"
    same "the digits at 255" f7 "$(crc_written '\x31\x32\x33\x34\x35\x36\x37\x38\x39' 255)"
    same "01 at 1" 00 "$(crc_written '\x01' 1)"
}

# Whoever is not asked takes 0, and the other subcommands take none.
check_register_default() {
    local sub
    run generate --in packets --length 300 --psd psd --crc-start 0
    same_file "generate --crc-start 0" sent out
    run log --in damaged --crc-start 0 --format csv
    same_file "log --crc-start 0" log.csv out
    for sub in channel coverage; do
        wrong "barzhilup $sub: unknown option --crc-start=255" "$sub" --crc-start=255
    done
    wrong "barzhilup generate: --stream: not a number from 0 to 255: x
barzhilup generate: --crc-start: not a number from 0 to 255: 256
barzhilup generate: --length: not a number from 0 to 65535: 70000" generate --length 70000 --crc-start 256 --stream x
    wrong "barzhilup log: --stream: not a number from 0 to 255: x
barzhilup log: --crc-start: not a number from 0 to 255: -1
barzhilup log: --format: not words, text, csv, json or records: xml" log --format xml --crc-start -1 --stream x
    for sub in generate log; do
        run "$sub" --help
        same "$sub --help says why" yes "$(tr -s '\n ' ' ' <out | grep -q 'recordings off the air check with 255' && echo yes || echo no)"
    done
}

# No register is refused, and none makes a mode and stream be taken that are not in the table.
check_register_refused() {
    refuses 5 --mode 4 --crc-start 255
    refuses 17 --length 96 --psd psd79 --crc-start 7
    stops "$(unlisted_line)" log --mode 4 --crc-start 255 --in sent --out new
    there "log of an unlisted mode with a register" no new
}

# All 256 registers: PDUs that are written and logged with one give the log of 0, word by word; logged with another, every piece is noted and no packet
# logged, and the summary asks for the register.
check_register_all() {
    local n pieces
    pieces=$(pieces_of sent)
    run log --in sent --format words
    cp out wanted
    cp err wanted.err
    for ((n = 0; n < 256; n += 1)); do
        run generate --in packets --length 300 --psd psd --crc-start "$n"
        cp out every
        run log --in every --crc-start "$n" --format words
        same_file "written and logged with $n" wanted out
        same_file "written and logged with $n, what is said" wanted.err err
        run log --in every --crc-start $((255 - n)) --format csv
        same "written with $n and logged with $((255 - n))" "$pieces notes, 0 packets, 0" \
            "$(grep -c '^[0-9]*,note,.*,2,wrong CRC,,,,,$' out || true) notes, $(grep -c '[0-9],packet,' out || true) packets, $status"
        same "written with $n and logged with $((255 - n)), the last line" "$(all_wrong_line $((255 - n)))" "$(tail -n 1 err)"
    done
}

# A drive at 255 over a bad road: the log of the same drive at 0, in each format. Logged at 0 all that was received is noted; the road only changes headers.
check_register_drive() {
    local format
    made started generate --in packets --length 300 --psd psd --crc-start 255
    made started.damaged channel --in started --seed 3 --loss 200
    for format in csv text words; do
        run log --in started.damaged --crc-start 255 --format "$format"
        same_file "a drive at 255, $format" "log.$format" out
        ended "a drive at 255, $format" 0 log
        not_all_wrong "a drive at 255, $format"
    done
    run log --in started.damaged --format csv
    ended "a drive at 255 logged at 0" 0 log
    same "a drive at 255 logged at 0, packets" 0 "$(grep -c '[0-9],packet,' out || true)"
    same "a drive at 255 logged at 0, PDUs" "$(grep -c ',received,' log.csv)" "$(grep -c ',received,' out)"
    same "a drive at 255 logged at 0, the last line" "$(all_wrong_line 0)" "$(tail -n 1 err)"
}

# What is said of PDUs logged with another register, and that it is said of nothing else: not where one CRC in a few is right, though its piece is only
# held or continues nothing, nor where no piece came.
check_register_said() {
    local pieces
    pieces=$(pieces_of started)
    run log --in started
    said "written at 255 and logged at 0" 0 log "barzhilup log: PDUs $(sent_pdus): received $(sent_pdus), lost 0, refused 0
barzhilup log: headers corrected 0, bytes corrected 0
barzhilup log: packets 0, PSD entries $(sent_pdus), notes $pieces
barzhilup log:   note wrong CRC: $pieces
$(loss_line 0 0)
$(all_wrong_line 0)"
    { cat started; cat sent; } >mixed
    run log --in mixed
    not_all_wrong "as many PDUs of the right register"
    run log --in empty --crc-start 255
    not_all_wrong "no PDUs"
    { record 0; record 95; } >mixed
    run log --in mixed --crc-start 255
    not_all_wrong "a lost and a refused PDU"
    check_register_held
    check_register_nearly
}

# A packet in three PDUs of one piece each, some of them written with another register.
check_register_held() {
    record 200 >big
    run generate --in big --length 96
    cp out parts
    run generate --in big --length 96 --crc-start 255
    cp out parts.started
    { head -c 98 parts; tail -c +99 parts.started; } >mixed
    run log --in mixed --format csv
    same "a right piece that is held, and wrong ones: notes" "1,note,0,,wrong CRC 2,note,0,,wrong CRC" "$(bare out | grep ',note,' | tr '\n' ' ' | sed 's/ $//')"
    not_all_wrong "a right piece that is held, and wrong ones"
    { head -c 98 parts.started; tail -c +99 parts; } >mixed
    run log --in mixed --format csv
    same "a wrong piece, and right ones that continue nothing: notes" "0,note,0,,wrong CRC 1,note,0,,nothing held 2,note,0,,nothing held" \
        "$(bare out | grep ',note,' | tr '\n' ' ' | sed 's/ $//')"
    not_all_wrong "a wrong piece, and right ones that continue nothing"
    run log --in parts.started --format csv
    same "the same packet, all its pieces wrong" "$(all_wrong_line 0)" "$(tail -n 1 err)"
    head -c -1 parts.started >mixed
    run log --in mixed
    same "a cut file whose CRCs are all wrong" "$(all_wrong_line 0)
barzhilup log: stopped early" "$(tail -n 2 err)"
    ended "a cut file whose CRCs are all wrong" 1 log
}

# Nearly all are wrong where there are more than 16 wrong ones to each right one. PDUs of one piece each, and then one whose CRC is right: its packet is
# delivered, its piece is held, it continues nothing, or it was damaged and is right by chance.
check_register_nearly() {
    local right
    run generate --in one --length 300
    cp out one.right
    run generate --in one --length 300 --crc-start 255
    cp out one.wrong
    head -c 98 parts >held.right
    tail -c 98 parts >ends.right
    { head -c 118 one.wrong; printf '\0'; tail -c +120 one.wrong; } >chance.right
    for right in one held ends chance; do
        { copies 16 one.wrong; cat "$right.right"; } >mixed
        run log --in mixed
        has_line "16 wrong ones to a right one, $right" "barzhilup log:   note wrong CRC: 16" err
        not_all_wrong "16 wrong ones to a right one, $right"
        { copies 17 one.wrong; cat "$right.right"; } >mixed
        run log --in mixed
        has_line "17 wrong ones to a right one, $right" "barzhilup log:   note wrong CRC: 17" err
        same "17 wrong ones to a right one, $right, the last line" "$(nearly_all_wrong_line 0)" "$(tail -n 1 err)"
        same "17 wrong ones to a right one, $right, said once" 1 "$(grep -c 'all CRCs' err)"
        ended "17 wrong ones to a right one, $right" 0 log
    done
    check_register_more
}

# The same with three right ones and with the other register, and where none is wrong or none right.
check_register_more() {
    { copies 48 one.wrong; copies 3 one.right; } >mixed
    run log --in mixed
    not_all_wrong "48 wrong ones to three"
    { copies 49 one.wrong; copies 3 one.right; } >mixed
    run log --in mixed
    same "49 wrong ones to three, the last line" "$(nearly_all_wrong_line 0)" "$(tail -n 1 err)"
    run log --in mixed --crc-start 255
    not_all_wrong "three wrong ones to 49"
    { copies 17 one.right; cat one.wrong; } >mixed
    run log --in mixed --crc-start 255
    same "17 wrong ones to one by 255, the last line" "$(nearly_all_wrong_line 255)" "$(tail -n 1 err)"
    copies 17 one.right >mixed
    run log --in mixed
    not_all_wrong "no wrong one"
    run log --in one.wrong
    same "a wrong one alone, the last line" "$(all_wrong_line 0)" "$(tail -n 1 err)"
}
