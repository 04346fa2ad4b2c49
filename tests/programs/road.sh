# What a road does beyond loss and damage: PDUs that come twice, out of turn, or cut. Sourced by run.sh.

# How often a thing happened in the last run of the channel, by its words.
road_count() {
    sed -n "s/^barzhilup channel: $1 //p" err
}

# Records of 2 to 41 bytes, each with its own number: forty of them, and a PDU marked lost after every ten.
make_road() {
    local k
    for ((k = 1; k <= 40; k += 1)); do
        printf '%b' "$(printf '\\x%02x\\x00' $((k + 1)))"
        printf '%b' "$(for ((i = 0; i <= k; i += 1)); do printf '\\x%02x' "$k"; done)"
        if ((k % 10 == 0)); then record 0; fi
    done >road
    record_lines road >road.lines
}

# By a seed: the same twice; 0 is what is without the options, also in what is said; and what else the seed decides stays.
check_road_seeds() {
    local seed option
    make_road
    for seed in 1 2 3; do
        run channel --in sent --seed "$seed" --bursts 300
        cp out wanted
        cp err wanted.err
        run channel --in sent --seed "$seed" --bursts 300 --twice 0 --swap 0 --cut 0
        same_file "a road that does nothing, seed $seed" wanted out
        same_file "a road that does nothing, seed $seed, what is said" wanted.err err
        run channel --in sent --seed "$seed" --bursts 300 --swap 500
        cp out once
        same "--swap, seed $seed, the other counts" "$(cat wanted.err)" "$(grep -v swapped err)"
        same "--swap, seed $seed, the same records in another order" "$(record_lines wanted | sort)" "$(record_lines out | sort)"
        same "--swap, seed $seed, the order is another" others "$(cmp -s wanted out || echo others)"
        run channel --in sent --seed "$seed" --bursts 300 --swap 500
        same_file "--swap, seed $seed, once more" once out
        run channel --in sent --seed "$seed" --bursts 300 --twice 500
        same "--twice, seed $seed, each record is as without" "$(record_lines wanted)" "$(record_lines out | awk 'NR == 1 || $0 != last || $0 == "" { print } { last = $0 }')"
        same "--twice, seed $seed, the other counts" "$(cat wanted.err)" "$(grep -v twice err)"
        run channel --in sent --seed "$seed" --bursts 300 --cut 500
        same "--cut, seed $seed, the other counts" "$(cat wanted.err)" "$(grep -v cut err)"
    done
}

# Twice: each PDU twice in a row, a lost one once; the count is said.
check_road_twice() {
    run channel --in road --loss 0 --damage 0 --twice 1000
    said "every PDU twice" 0 channel "barzhilup channel: PDUs 44 (lost before 4), lost 0, damaged 0, bytes altered 0
barzhilup channel: PDUs sent twice 40"
    same "every PDU twice, the records" "$(awk '{ print } $0 != "" { print }' road.lines)" "$(record_lines out)"
    run channel --in road --loss 0 --damage 0 --twice 300
    same "some PDUs twice, as many more records as are said" $((44 + $(road_count "PDUs sent twice"))) "$(record_lines out | wc -l)"
}

# Swap: two by two, where every PDU would; a lost one begins no exchange, and the last record has none to change places with.
check_road_swap() {
    run channel --in road --loss 0 --damage 0 --swap 1000
    said "every PDU swapped" 0 channel "barzhilup channel: PDUs 44 (lost before 4), lost 0, damaged 0, bytes altered 0
barzhilup channel: PDUs swapped with the next 20"
    same "every PDU swapped, the records" "$(awk '$0 == "" && held == "" { print; next } held == "" { held = $0; next } { print; print held; held = "" } END { if (held != "") print held }' road.lines)" "$(record_lines out)"
    pdus 0 1 >first
    run channel --in first --loss 0 --damage 0 --swap 1000
    same_file "one PDU stays in its place" first out
    said "one PDU stays in its place" 0 channel "barzhilup channel: PDUs 1 (lost before 0), lost 0, damaged 0, bytes altered 0
barzhilup channel: PDUs swapped with the next 0"
    head -c 700 sent >first
    run channel --in first --loss 0 --damage 0 --swap 1000
    same_file "a file that is cut, what stands before the cut" <(pdus 1 1; pdus 0 1) out
    ended "a file that is cut" 1 channel
    head -c 400 sent >first
    run channel --in first --loss 0 --damage 0 --swap 1000
    same_file "a file that is cut after one PDU" <(pdus 0 1) out
    ended "a file that is cut after one PDU" 1 channel
}

# Cut: each record has fewer bytes than it had, the first ones, and at least one; a PDU of one byte and a lost one stay.
check_road_cut() {
    run channel --in road --loss 0 --damage 0 --cut 1000
    said "every PDU cut" 0 channel "barzhilup channel: PDUs 44 (lost before 4), lost 0, damaged 0, bytes altered 0
barzhilup channel: PDUs cut 40"
    same "every PDU cut, each is a beginning" 44 "$(paste -d : road.lines <(record_lines out) | awk -F : '$1 == "" && $2 == "" || $2 != "" && length($2) < length($1) && index($1, $2) == 1' | wc -l)"
    { record 1; record 0; } >short
    run channel --in short --loss 0 --damage 0 --cut 1000
    same_file "a PDU of one byte and a lost one are not cut" short out
    same "a PDU of one byte and a lost one are not cut, what is said" 0 "$(road_count "PDUs cut")"
    run channel --in sent --loss 0 --damage 0 --cut 1000
    cp out came
    run log --in came --format csv
    # Behind the last packet a PDU has zeros, which may be missing.
    same "PDUs that are cut inside a piece are refused" "" "$(grep ',received,' out | grep -v "^$(($(sent_pdus) - 1))," || true)"
}

# All three, with marks: a record of marks for each record, of the same PDU.
check_road_marks() {
    run channel --in sent --seed 4 --loss 0 --damage 1000 --bytes 8 --twice 300 --swap 300
    local plain
    plain=$(cat err)
    cp out came
    rm -f road.marks
    run channel --in sent --seed 4 --loss 0 --damage 1000 --bytes 8 --twice 300 --swap 300 --marks road.marks
    same_file "a road with marks, the PDUs" came out
    same "a road with marks, what is said" "$plain" "$(cat err)"
    same "a road with marks, as many records" "$(record_lines came | wc -l)" "$(record_lines road.marks | wc -l)"
    run log --in came --marks road.marks --format csv
    same "a road with marks, every header is corrected" "" "$(grep ',refused,' out || true)"
    same "a road with marks, every PDU is received" "$(record_lines came | wc -l)" "$(grep -c ',received,' out || true)"
}

# The log of a PDU that comes twice has its packets twice, and the note of the sequence.
check_road_log() {
    steps 0 1 2 3 >some
    run channel --in some --loss 0 --damage 0 --twice 1000
    cp out came
    run log --in came --mode 1 --format csv
    ended "PDUs that come twice, logged" 0 log
    same "PDUs that come twice, notes of the sequence" 4 "$(grep -c '^[0-9]*,note,.*,1,sequence,' out || true)"
    same "PDUs that come twice, packets" 8 "$(grep -c '^[0-9]*,packet,' out || true)"
}
