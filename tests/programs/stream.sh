# PSD that runs across PDUs, and settings that change from PDU to PDU. Sourced by run.sh.

# The PSD of a log in words, joined: the bytes of its entries of kind 2, in hexadecimal.
joined_psd() {
    od -An -v -tx4 -w4 "$1" | awk '
        { kind = index("0123456789abcdef", substr($1, 1, 1)) - 1 }
        kind < 4 || kind >= 12 { psd = 0; next }
        kind >= 8 { psd = 1; next }
        psd { many = substr($1, 2, 1) % 4; printf "%s", substr($1, 3, 2 * many) }'
}

# The bytes of a file in hexadecimal.
hexadecimal() {
    od -An -v -tx1 "$1" | tr -d ' \n'
}

# The lengths of the PSD of a file of PDUs, one for each PDU, 0 where it has none.
psd_lengths() { # FILE OPTIONS
    run log --in "$1" --format csv "${@:2}"
    awk -F , '$2 == "received" { if (NR > 2) print length_of; length_of = 0 } $2 == "psd" { length_of = $7 } $2 == "end" { print length_of }' out | tr '\n' ' ' | sed 's/ $//'
}

# What generate says with a stream: the counts, and the bytes of PSD.
stream_lines() { # PACKETS BYTES PDUS SIZE PSD
    echo "barzhilup generate: packets $1 (bytes $2), PDUs $3 (bytes $4)
barzhilup generate: bytes of PSD $5"
}

# A tag of 46 bytes in mode 1, whose PDUs have 21: refused whole in each PDU, sent as a stream, and joined again by a log.
check_stream_tag() {
    printf 'ID3 a tag of forty-six bytes, of song and sing' >tag
    same "the tag's bytes" 46 "$(wc -c <tag)"
    records 40 60 >even
    stops "barzhilup generate: refused with 16: $(generate_words --mode 2 --psd psd22)" generate --in even --mode 1 --length 300 --psd tag
    run generate --in even --mode 1 --length 300 --psd-stream tag
    said "a tag as a stream" 0 generate "$(stream_lines 40 2400 9 2700 46)"
    cp out came
    same "a tag as a stream, its parts" "21 21 4 0 0 0 0 0 0" "$(psd_lengths came --mode 1)"
    run log --in came --mode 1 --format words
    same "a tag as a stream, joined" "$(hexadecimal tag)" "$(joined_psd out)"
    run generate --in even --mode 1 --length 300 --psd-stream tag --psd-bytes 20
    cp out came
    same "20 bytes at most" "20 20 6 0 0 0 0 0 0" "$(psd_lengths came --mode 1)"
    run generate --in even --mode 1 --length 300 --psd-stream tag --psd-bytes 128
    cp out came
    same "more than the mode has" "21 21 4 0 0 0 0 0 0" "$(psd_lengths came --mode 1)"
    run generate --in even --mode 1 --length 300 --psd-stream tag --program 3 --marker 5
    cp out came
    same "beside expansion fields of 5 bytes" "16 16 14 0 0 0 0 0 0 0" "$(psd_lengths came --mode 1)"
    run generate --in even --mode 1 --length 300 --psd-stream - <tag
    said "a stream from standard input" 0 generate "$(stream_lines 40 2400 9 2700 46)"
}

# Again from its start; a file that has more than is sent; an empty one.
check_stream_repeat() {
    run generate --in even --mode 1 --length 300 --psd-stream tag --psd-repeat
    said "a stream again and again" 0 generate "$(stream_lines 40 2400 10 3000 "$((3 * 46 + 21))")"
    cp out came
    same "a stream again and again, its parts" "21 21 4 21 21 4 21 21 4 21" "$(psd_lengths came --mode 1)"
    head -c 21 tag >part
    run generate --in even --mode 1 --length 300 --psd-stream part --psd-repeat
    cp out came
    same "a file that ends with a PDU, again" "21 21 21 21 21 21 21 21 21 21" "$(psd_lengths came --mode 1)"
    run generate --in one --mode 1 --length 300 --psd-stream tag
    said "a file with more PSD" 0 generate "$(stream_lines 1 100 1 300 21)
barzhilup generate: tag: has more PSD than was sent"
    run generate --in one --mode 1 --length 300 --psd-stream part
    said "a file that is sent just whole" 0 generate "$(stream_lines 1 100 1 300 21)"
    run generate --in one --length 300
    cp out without
    run generate --in one --length 300 --psd-stream empty
    same_file "an empty stream is none" without out
    run generate --in one --length 300 --psd-stream empty --psd-repeat
    same_file "an empty stream again is none" without out
    said "an empty stream again" 0 generate "$(stream_lines 1 100 1 300 0)"
    status=0
    cat tag | "$program" generate --in one --psd-stream - --psd-repeat >out 2>err || status=$?
    said "a pipe again" 1 generate "barzhilup generate: standard input: cannot be read again from its start (--psd-repeat)"
}

# What is refused, and what is asked wrongly.
check_stream_wrong() {
    stops "barzhilup generate: refused with 16: $(generate_words --mode 1 --stream 1 --psd psd14)" generate --in one --mode 1 --stream 1 --psd-stream tag --out new
    there "a stream where there is no PSD" no new
    stops "barzhilup generate: refused with 17: $(generate_words --length 96 --psd psd79)" generate --in one --length 96 --psd-stream tag
    run generate --in one --length 96 --psd-stream tag --psd-bytes 78
    ended "a stream of 78 bytes in 96" 0 generate
    stops "barzhilup generate: none: No such file or directory" generate --in one --psd-stream none --out new
    there "a stream that is not there" no new
    run generate --in one --psd-stream folder
    said "a folder as a stream" 1 generate "barzhilup generate: folder: cannot be read
$(stream_lines 0 0 0 0 0)"
    local value
    for value in 0 129 x '' -1 1.5; do
        wrong "barzhilup generate: --psd-bytes: not a number from 1 to 128: $value" generate --in one --psd-stream tag --psd-bytes "$value"
    done
    wrong "barzhilup generate: --psd-stream: takes the place of --psd" generate --in one --psd psd --psd-stream tag
    wrong "barzhilup generate: --psd-bytes: no PSD runs across PDUs (--psd-stream)" generate --in one --psd-bytes 5
    wrong "barzhilup generate: --psd-repeat: no PSD runs across PDUs (--psd-stream)" generate --in one --psd-repeat
    wrong "barzhilup generate: --psd-stream: standard input has the packets" generate --psd-stream -
    wrong "barzhilup generate: --settings: standard input has the packets" generate --settings -
    wrong "barzhilup generate: --settings: standard input has the PSD" generate --in one --settings - --psd -
    wrong "barzhilup generate: --settings: standard input has the PSD" generate --in one --settings - --psd-stream -
}

# The records of a file from one on, so many, of 300 bytes each.
some_pdus() { # FILE FROM MANY
    head -c $((302 * ($2 + $3))) "$1" | tail -c $((302 * $3))
}

# Settings that change: each PDU is that of a run whose options are those of its line, where packets end with the PDUs.
check_changes() {
    records 40 283 >whole
    printf '%s\n' '# the drive' '' '2 gain=3 latency=2 # louder' '3 program=2 displacement' '   ' '5	program=- type=7' '7 displacement=- access=-' '9 gain=0 latency=0' >plan
    run generate --in whole --length 300 --settings plan
    said "a plan" 0 generate "barzhilup generate: packets 40 (bytes 11320), PDUs 41 (bytes 12300)
barzhilup generate: changes of settings 5"
    cp out planned
    run log --in planned
    has_line "a plan, logged" "barzhilup log: packets 40, PSD entries 0, notes 0" err
    same "a plan: blend, gain, delays and latency, PDU by PDU" "0 0 67 67 67 67 67 67 67 0 0" "$(control_of planned | cut -d ' ' -f 1 | sed -n 1,11p | tr '\n' ' ' | sed 's/ $//')"
    same "a plan: whether there are expansion fields, PDU by PDU" "0 0 0 1 1 1 1 0 0 0 0" "$(control_of planned | cut -d ' ' -f 2 | sed -n 1,11p | tr '\n' ' ' | sed 's/ $//')"
    run generate --in one --length 300 --gain 3 --latency 2 --program 2 --displacement
    cp out wanted
    printf '0 gain=3 latency=2 program=2 displacement\n' >plan
    run generate --in one --length 300 --settings plan
    same_file "a change at the first PDU is as the options" wanted out
    printf '0 latency=2 program=2 displacement type=9 marker=3\r\n' >plan
    run generate --in one --length 300 --gain 3 --settings - <plan
    cp out some
    run generate --in one --length 300 --gain 3 --latency 2 --program 2 --displacement --type 9 --marker 3
    same_file "what a line does not name stays, from standard input, with carriage returns" some out
    printf '0 gain=1\n1 gain=2\n4 gain=3' >plan
    run generate --in one --length 300 --settings plan
    said "changes that do not come" 0 generate "barzhilup generate: packets 1 (bytes 100), PDUs 1 (bytes 300)
barzhilup generate: changes of settings 1
barzhilup generate: plan: line 2: its PDU did not come, nor any after it"
}

# Of each PDU of a file with PDUs of 300 bytes: the sum of gain, 8 times common delay and 32 times latency as bits, and the expansion flag.
control_of() {
    od -An -v -tu1 -w302 "$1" | awk '{ print int($12 / 8) + 32 * (int($13 / 64) % 4), int($15 / 128) }'
}

# Lines that are wrong, or refused: said with their number, and nothing is made.
check_changes_wrong() {
    local line words
    while IFS='|' read -r line words; do
        printf '# first\n0 gain=1\n%s\n9 gain=x\n' "$line" >plan
        stops "barzhilup generate: plan: line 3: $words" generate --in one --length 300 --settings plan --out new
        there "the line $line" no new
    done <<'END'
x gain=1|does not begin with the number of a PDU: x
gain=1|does not begin with the number of a PDU: gain=1
-1 gain=1|does not begin with the number of a PDU: -1
4294967296 gain=1|does not begin with the number of a PDU: 4294967296
0 gain=1|the PDU does not come after that of the line before: 0
5|names no setting for PDU 5
5 # gain=1|names no setting for PDU 5
5 loud=1|no setting has this name: loud=1
5 gain=1 =2|no setting has this name: =2
5 Gain=1|no setting has this name: Gain=1
5 gain|has no value: gain
5 gain=|not a number from 0 to 255: gain=
5 gain=x latency=9|not a number from 0 to 255: gain=x
5 type=256|not a number from 0 to 255: type=256
5 marker=4294967296|not a number from 0 to 4294967295: marker=4294967296
5 gain=-|not an expansion field, which can be taken away: gain=-
5 displacement=1|takes no value but -: displacement=1
5 gain=7|refused with 14: --gain: not 0 to 6 or 24 to 31 (stream 0)
5 class=1 program=1|refused with 10: --class 1: --access is not 1
5 latency=8|refused with 14: --latency: not 0 to 7
END
    printf '0 program=1 marker=4\n' >plan
    head -c 17 tag >part
    stops "barzhilup generate: plan: line 1: refused with 16: --psd: over 16 bytes, the most that the mode has beside expansion fields" generate --in one --mode 1 --length 300 --psd part --settings plan
    stops "barzhilup generate: none: No such file or directory" generate --in one --settings none
    stops "barzhilup generate: folder: Is a directory" generate --in one --settings folder --out new
    head -c 65536 /dev/zero | tr '\0' '#' >plan
    stops "barzhilup generate: plan: has over 65,535 bytes" generate --in one --settings plan
    head -c 65535 /dev/zero | tr '\0' '#' >plan
    run generate --in one --settings plan
    ended "a plan of 65,535 bytes" 0 generate
}

# A stream and changes: each PDU has as much PSD as its settings leave.
check_changes_stream() {
    printf '1 program=1 marker=4\n2 marker=-\n' >plan
    run generate --in even --mode 1 --length 300 --psd-stream tag --settings plan
    said "a stream and changes" 0 generate "$(stream_lines 40 2400 10 3000 46)
barzhilup generate: changes of settings 2"
    cp out came
    same "a stream and changes, its parts" "21 16 9 0 0 0 0 0 0 0" "$(psd_lengths came --mode 1)"
    run log --in came --mode 1 --format words
    same "a stream and changes, joined" "$(hexadecimal tag)" "$(joined_psd out)"
}
