# Packets to PDUs: settings, PSD and packets that are refused or just not, ADTS frames, and a PDU by hand. Sourced by run.sh.

# The words of a refusal, by the options that are refused.
generate_words() {
    awk -F ' [|] ' -v options="$(sed 's/ --crc-start [0-9]*//' <<<"$*")" '{ given = $1; sub(/^[0-9]+ /, "", given) } given == options { print $2 }' "$data/generate.settings"
}

# A refusal: its number and the options. Nothing is made, and what was in its output before is kept, also with --force, and where a packet is wrong
# too.
refuses() {
    local line
    line="barzhilup generate: refused with $1: $(generate_words "${@:2}")"
    shift
    stops "$line" generate --in one "$@" --out new
    there "generate $*" no new
    echo old >kept
    stops "$line" generate --in one "$@" --out kept --force
    same "generate $*: what was there is kept" old "$(cat kept)"
    there "generate $*" no kept~
    stops "$line" generate --in empty "$@"
}

# Settings that are right at the edge.
takes() {
    run generate --in one "$@"
    same "generate $*, what is said" "barzhilup generate: packets 1 (bytes 100), PDUs" "$(cut -d ' ' -f 1-7 err)"
    ended "generate $*" 0 generate
}

# The table of settings: each line has a refusal's number, or 0 where they are taken, and the options.
check_settings() {
    local number options length
    for length in 14 22 78 79 128 129 5000; do
        head -c "$length" /dev/zero >"psd$length"
    done
    while read -r number options; do
        # The options are words without spaces in them.
        case $number in
            '#') ;;
            0) takes $options ;;
            *) refuses "$number" ${options% | *} ;;
        esac
    done <"$data/generate.settings"
}

# Packets that are refused with 15, and dumps that are none; those before them are sent.
check_packets() {
    local before="barzhilup generate: packets 1 (bytes 100), PDUs 1 (bytes 1024)"
    local wrong
    { record 100; record 0; record 5; } >zero
    run generate --in one
    cp out first
    run generate --in zero
    said "a packet of length 0" 1 generate "barzhilup generate: zero: at byte 102: refused with 15: packet 1 has no bytes
$before"
    same_file "the packets before one of length 0 are sent" first out
    { record 100; record 4097; record 5; } >long
    run generate --in long
    said "a packet over 4,096" 1 generate "barzhilup generate: long: at byte 102: refused with 15: packet 1 has over 4,096 bytes
$before"
    { frame 107; frame 4104; } >long
    run generate --adts --in long
    said "a frame over 4,096" 1 generate "barzhilup generate: long: at byte 107: refused with 15: packet 1 has over 4,096 bytes
$before"
    { frame 107; frame 7; } >zero
    run generate --adts --in zero
    said "a frame without a packet" 1 generate "barzhilup generate: zero: at byte 107: refused with 15: packet 1 has no bytes
$before"
    for wrong in '\xff\xe1\x50\x80\x01\x1f\xfc' '\xfe\xf1\x50\x80\x01\x1f\xfc' '\xff\xf1\x50\x80\x00\xdf\xfc' 'ID3....'; do
        { frame 107; printf '%b' "$wrong"; } >none.adts
        run generate --adts --in none.adts
        said "no frame at $wrong" 1 generate "barzhilup generate: none.adts: at byte 107: no ADTS frame at packet 1
$before"
    done
    run generate --adts --in dump --length 300 --psd psd
    same_file "a dump is sent as its packets are" sent out
    ended "a dump is sent" 0 generate
    run generate --adts --resync --in dump --length 300 --psd psd
    same_file "a dump is sent as its packets are, where frames are looked for" sent out
    ended "a dump is sent, where frames are looked for" 0 generate
}

# What is passed over of the file broken.adts, between two bytes: the packets of these lengths are sent, from a pipe too, and the place is said.
passes() { # ABOUT FROM TO LENGTH...
    local about=$1
    local passed=$(($3 - $2))
    local place="passed over $passed bytes, from byte $2 to byte $3: no frame begins there"
    local length
    for length in "${@:4}"; do
        record "$length"
    done >wanted.packets
    run generate --in wanted.packets --length 96
    cp out wanted
    cp err counted
    run generate --adts --resync --in broken.adts --length 96
    said "$about" 0 generate "barzhilup generate: broken.adts: $place
$(cat counted)
barzhilup generate: places passed over 1 (bytes $passed)"
    same_file "$about" wanted out
    status=0
    cat broken.adts | "$program" generate --adts --resync --length 96 >out 2>err || status=$?
    said "$about, from a pipe" 0 generate "barzhilup generate: standard input: $place
$(cat counted)
barzhilup generate: places passed over 1 (bytes $passed)"
    same_file "$about, from a pipe" wanted out
}

# The first bytes of a frame of 107 bytes.
part_of_frame() {
    frame 107 | head -c "$1" || true
}

# Bytes at which no ADTS frame begins: before, between and after frames, a frame that is cut with others behind it, and one whose header is damaged.
check_frames_resync() {
    local count
    for count in 1 2 7 50 8191 8192 8193 30000; do
        { head -c "$count" /dev/zero; frame 107; frame 57; } >broken.adts
        passes "$count bytes before the frames" 0 "$count" 100 50
        { frame 107; head -c "$count" /dev/zero; frame 57; frame 8; } >broken.adts
        passes "$count bytes between frames" 107 $((107 + count)) 100 50 1
        { frame 107; frame 57; head -c "$count" /dev/zero; } >broken.adts
        passes "$count bytes after the frames" 164 $((164 + count)) 100 50
    done
    for count in 1 2 6 7 8 60 106; do
        { frame 57; part_of_frame "$count"; frame 57; frame 4103; } >broken.adts
        passes "a frame cut after $count bytes" 57 $((57 + count)) 50 50 4096
        { frame 57; part_of_frame "$count"; } >broken.adts
        passes "a last frame cut after $count bytes" 57 $((57 + count)) 50
    done
    { frame 57; frame 120 | head -c 107; frame 57; frame 107; } >broken.adts
    passes "a length that is too great" 57 164 50 50 100
    { frame 57; frame 107 | tr '\377' '\376'; frame 57; } >broken.adts
    passes "a wrong syncword" 57 164 50 50
    { frame 57; frame 7; frame 5000; frame 57; } >broken.adts
    passes "frames without a packet, and with one that is too long" 57 5064 50 50
    check_frames_alone
    check_frames_counted
    check_frames_asked
}

# Other bytes than zeros: PDUs, and a file in which no frame is.
check_frames_alone() {
    { frame 107; cat sent; frame 57; } >broken.adts
    passes "PDUs between frames" 107 $((107 + $(stat -c %s sent))) 100 50
    run generate --adts --resync --in sent
    said "a file without a frame" 0 generate "barzhilup generate: sent: passed over $(stat -c %s sent) bytes, from byte 0 to byte $(stat -c %s sent): no frame begins there
$(nothing_of generate)
barzhilup generate: places passed over 1 (bytes $(stat -c %s sent))"
}

# More places than have a line each. `latency` says the same.
check_frames_counted() {
    local turn
    local sub
    for ((turn = 0; turn < 7; turn += 1)); do
        frame 57
        frame 57
        echo
    done >broken.adts
    records 14 50 >wanted.packets
    for sub in generate "latency --packets"; do
        run ${sub} --in wanted.packets
        cp out wanted
        cp err counted
        run ${sub} --adts --resync --in broken.adts
        ended "seven places, $sub" 0 "${sub%% *}"
        for ((turn = 0; turn < 5; turn += 1)); do
            echo "barzhilup ${sub%% *}: broken.adts: passed over 1 bytes, from byte $((114 + 115 * turn)) to byte $((115 + 115 * turn)): no frame begins there"
        done >wanted.err
        { echo "barzhilup ${sub%% *}: broken.adts: further places passed over are counted only"
          echo "barzhilup ${sub%% *}: places passed over 7 (bytes 7)"
          cat counted; } >>wanted.err
        same "seven places, $sub, what is said" "$(sort wanted.err)" "$(sort err)"
        same_file "seven places, $sub" wanted out
    done
}

# Records of packets have nothing to be known by.
check_frames_asked() {
    local line=": --resync: nothing tells where a record of a packet begins (--adts)"
    wrong "barzhilup generate$line" generate --in packets --resync --out new
    wrong "barzhilup latency$line" latency --packets --in packets --resync --out new
}

# A PDU by hand (document 01, example j): mode 0, 96 bytes, a packet of 100: 79 of it sent, locator 95, Plast.
check_example() {
    run generate --in one --length 96
    same "example j, length, control word and locator" "60 00 00 00 00 04 02 0f 5f 00" \
        "$(od -An -v -t x1 -j 0 -N 18 out | tr -d '\n' | cut -d ' ' -f 2,3,12-19)"
    said "example j, the second PDU ends the packet" 0 generate "barzhilup generate: packets 1 (bytes 100), PDUs 2 (bytes 192)"
    cp out example
    run log --in example
    said "example j, logged" 0 log "barzhilup log: PDUs 2: received 2, lost 0, refused 0
barzhilup log: headers corrected 0, bytes corrected 0
barzhilup log: packets 1, PSD entries 0, notes 0
$(loss_line 1 0)"
}

# The counts of pieces of the PDUs of the last file, of 400 bytes each: bits 6-1 of byte 12, after the record's two bytes.
counts_of_pieces() {
    od -An -v -tu1 -w402 out | awk '{ print int($15 / 2) % 64 }' | tr '\n' ' ' | sed 's/ $//'
}

# As many pieces as there can be (document 02, Ask 9): 63, or the most for which La is at most 255. Locators have 16 bits in mode 0, 12 in mode 10. All
# packets are logged.
check_many_pieces() {
    local mode psd counts
    records 64 1 >ones
    for psd in 0 116 117 128; do
        head -c "$psd" /dev/zero >many.psd
        for mode in 0 10; do
            case $mode,$psd in
                0,117) counts="62 2" ;;
                0,128) counts="57 7" ;;
                *) counts="63 1" ;;
            esac
            run generate --in ones --length 400 --mode "$mode" --psd many.psd
            said "64 packets of a byte, mode $mode, PSD of $psd" 0 generate "barzhilup generate: packets 64 (bytes 64), PDUs 2 (bytes 800)"
            same "64 packets of a byte, mode $mode, PSD of $psd, pieces" "$counts" "$(counts_of_pieces)"
            cp out many
            run log --in many --mode "$mode" --format csv
            ended "64 packets of a byte, mode $mode, PSD of $psd, logged" 0 log
            same "64 packets of a byte, mode $mode, PSD of $psd, logged" 64 "$(grep -c '^[01],packet,,,,[0-9]*,1,' out)"
        done
    done
}

# Nothing to do, and no PSD.
check_empty() {
    local sub
    for sub in generate channel log; do
        says 0 /dev/null "$(nothing_of "$sub")" "$sub"
        says 0 /dev/null "$(nothing_of "$sub")" "$sub" --in empty
    done
    says 0 /dev/null "$(nothing_of generate)" generate --in empty --adts
    says 0 /dev/null "$(nothing_of log)" log --in empty --format words
    run generate --in one --length 96
    cp out without
    run generate --in one --psd empty --length 96
    same_file "an empty PSD is none" without out
}
