# Bursts in the pieces (document 02, Ask 12): what the channel flips, and a log of what came. Sourced by run.sh.

# Each run of the channel gives this line after the counts: how many pieces were hit.
hit_line() {
    echo "barzhilup channel: pieces hit by bursts $1"
}

# How many pieces were hit by the last run of the channel.
hits() {
    sed -n 's/^barzhilup channel: pieces hit by bursts //p' err
}

# By a seed: twice the same, another seed gives others; and 0 is what is without the option, also in what is said.
check_bursts_seeds() {
    local seed
    for seed in 1 2 3; do
        run channel --in sent --seed "$seed"
        cp out wanted
        cp err wanted.err
        run channel --in sent --seed "$seed" --bursts 0
        same_file "--bursts 0, seed $seed" wanted out
        same_file "--bursts 0, seed $seed, what is said" wanted.err err
        run channel --in sent --seed "$seed" --bursts 300
        ended "--bursts 300, seed $seed" 0 channel
        cp out "hit.$seed"
        same "--bursts 300, seed $seed, the other counts" "$(cat wanted.err)" "$(grep -v bursts err)"
        same "--bursts 300, seed $seed, pieces are hit" yes "$([ "$(hits)" -gt 0 ] && echo yes || echo no)"
        run channel --in sent --seed "$seed" --bursts 300
        same_file "--bursts 300, seed $seed, once more" "hit.$seed" out
    done
    same "two seeds give other bursts" others "$(cmp -s hit.1 hit.2 || echo others)"
}

# What is flipped of PDUs of 300 bytes that all come through with whole headers: a line for each PDU and byte, with the bits that differ from the file sent.
flipped_bytes() {
    { cmp -l sent "$1" || true; } | awk '{ at = $1 - 1; print int(at / 302), at % 302 - 2, $2, $3 }'
}

# Nothing before byte 96 is flipped, with every piece hit that has bytes from there on; and the summary of the log counts them.
check_bursts_places() {
    run channel --in sent --seed 7 --loss 0 --damage 0 --bursts 1000
    cp out came
    local many
    many=$(hits)
    same "every piece is hit, what is said" "barzhilup channel: PDUs $(sent_pdus) (lost before 0), lost 0, damaged 0, bytes altered 0
$(hit_line "$many")" "$(cat err)"
    same "bytes flipped before byte 96" "" "$(flipped_bytes came | awk '$2 < 96')"
    same "at most two bytes of a piece are flipped" yes \
        "$([ "$(flipped_bytes came | wc -l)" -le $((2 * many)) ] && [ "$(flipped_bytes came | wc -l)" -ge "$many" ] && echo yes || echo no)"
    run log --in came --format csv
    same "a log of them, the notes" "$many" "$(grep -c ',note,.*,2,wrong CRC,,,,,$' out || true)"
    has_line "a log of them, the summary" "barzhilup log:   note wrong CRC: $many" err
}

# PDUs that are refused, or have no pieces, are left alone: of 95 bytes, of zeros, marked lost, with a header beyond correction.
check_bursts_refused() {
    { record 95; record 96; record 0; record 300; } >mixed
    run channel --in mixed --loss 0 --damage 0 --bursts 1000
    same_file "PDUs that are refused" mixed out
    has_line "PDUs that are refused, what is said" "$(hit_line 0)" err
    run channel --in sent --seed 2 --loss 0 --damage 1000 --bytes 96
    cp out beyond
    run channel --in beyond --loss 0 --damage 0 --bursts 1000
    same_file "headers beyond correction" beyond out
    # A header that is corrected on the way to its pieces is sent as it came.
    run channel --in sent --seed 5 --loss 0 --damage 1000 --bytes 4
    cp out altered
    run channel --in altered --seed 7 --loss 0 --damage 0 --bursts 1000
    same "headers that are not whole stay so" "$(flipped_bytes altered | awk '$2 < 96')" "$(flipped_bytes out | awk '$2 < 96')"
    same "headers that are not whole, the pieces" "$(flipped_bytes came | awk '$2 >= 96')" "$(flipped_bytes out | awk '$2 >= 96')"
}

# The packets of a log in words, one in a line: number, length and bytes.
logged_packets() {
    od -An -v -tx4 -w4 "$1" | awk '
        { kind = index("0123456789abcdef", substr($1, 1, 1)) - 1 }
        kind < 4 { if (line != "") print line; line = $1; next }
        kind < 8 { if (line != "") line = line $1; next }
        { if (line != "") print line; line = "" }
        END { if (line != "") print line }'
}

# The records of a file, one in a line: its bytes as numbers, none for a PDU marked lost.
record_lines() {
    od -An -v -tu1 -w1 "$1" | awk '
        at == 0 { left = $1; at = 1; next }
        at == 1 { left += 256 * $1; at = 2; line = "" }
        at == 3 { line = line " " $1; left -= 1 }
        at == 2 { at = 3 }
        left == 0 { print line; at = 0 }'
}

# Of all packets, those none of whose pieces was lost or hit: piece by piece of the PDUs of mode 0 that were sent, by La and the locators; the first is a
# packet's next piece where the PDU before has Plast. A piece was hit if a byte from 96 on, up to its CRC byte, came as another.
whole_packets() { # SENT CAME PACKETS
    awk '
        FILENAME == ARGV[1] { sent[FNR] = $0; many = FNR; next }
        FILENAME == ARGV[2] { came[FNR] = $0; next }
        { packet[FNR] = $0; packets = FNR }
        END {
            at = 1
            for (k = 1; k <= many; k += 1) {
                split(sent[k], s, " ")
                lost = split(came[k], c, " ") == 0
                pieces = int(s[13] / 2) % 64
                from = s[14] + 1
                for (i = 0; i < pieces; i += 1) {
                    end = s[15 + 2 * i] + 256 * s[16 + 2 * i]
                    if (lost) gone[at] = 1
                    for (j = from < 96 ? 96 : from; j <= end && !lost; j += 1) if (s[j + 1] != c[j + 1]) gone[at] = 1
                    from = end + 1
                    if (i < pieces - 1 || int(s[12] / 4) % 2 == 0) at += 1
                }
            }
            if (at != packets + 1) print "of " packets " packets " at - 1 " were sent"
            for (k = 1; k <= packets; k += 1) if (!(k in gone)) print packet[k]
        }' "$1" "$2" "$3"
}

# Drives with bursts: the packets none of whose pieces was lost or hit are logged, in their order, and no other; fewer than without bursts.
check_bursts_drives() {
    local seed samples=$here/../../samples
    run generate --in "$samples/packets" --psd "$samples/psd" --length 512
    cp out many
    record_lines many >many.lines
    run log --in many --format words
    logged_packets out >all.packets
    for seed in 1 2 3 4 5; do
        run channel --in many --seed "$seed" --loss 30
        cp out came
        run log --in came --format words
        logged_packets out >without.packets
        run channel --in many --seed "$seed" --loss 30 --bursts 200
        cp out came
        local many_hit
        many_hit=$(hits)
        record_lines came >came.lines
        whole_packets many.lines came.lines all.packets >wanted
        run log --in came --format words
        ended "a drive with bursts, seed $seed" 0 log
        has_line "a drive with bursts, seed $seed, the summary" "barzhilup log:   note wrong CRC: $many_hit" err
        logged_packets out >some.packets
        same "a drive with bursts, seed $seed: packets are logged" yes "$([ -s some.packets ] && echo yes || echo no)"
        same_file "a drive with bursts, seed $seed: the packets" wanted some.packets
        same "a drive with bursts, seed $seed: fewer than without" yes "$([ "$(wc -l <some.packets)" -lt "$(wc -l <without.packets)" ] && echo yes || echo no)"
        same_in_batches "a drive with bursts, seed $seed" came
    done
}
