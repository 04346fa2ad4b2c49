# The loss column (document 02, Ask 14): delivered and missing in the CSV, the summary and the picture, held to what is worked out here from the packets sent
# and those logged; and logs that have none. Sourced by run.sh.

# So many packets of 31 bytes, each with its place in the row of all.
numbered() {
    local number
    for ((number = 0; number < $1; number += 1)); do
        printf '\x1f\0packet number %017d' "$number"
    done
}

# PDUs of such packets, in the file numbered, and what each packet is in the log of all.
make_numbered() { # PACKETS OPTION...
    numbered "$1" >row
    shift
    run generate --in row --length 200 "$@"
    cp out numbered
    run log --in numbered --format words
    logged_packets out >row.packets
}

# The places of the packets that a log in words has, by what they hold.
places_logged() {
    logged_packets "$1" | awk 'NR == FNR { place[$0] = NR - 1; next } { print place[$0] }' row.packets -
}

# Delivered and missing by the places: all from the first to the last are one or the other. Where 64 or more are missing between two, it is by the numbers.
loss_by_places() {
    awk 'NR == 1 { first = $1 } NR > 1 && $1 - last > 64 { print "far" } { last = $1; n += 1 } END { print n + 0, n ? last - first + 1 - n : 0 }' | tr '\n' ' ' | sed 's/ $//'
}

# The loss column of a CSV's last PDU.
last_loss() {
    awk -F , '$2 == "received" || $2 == "lost" || $2 == "refused" { loss = $11 " " $12 } END { print loss }' "$1"
}

# The lines of a CSV with a loss column that is counted here, PDU by PDU, from the numbers of the packets.
recounted() {
    awk -F , -v OFS=, '
        NR == FNR { if ($2 == "packet") { if (n) missing += ($6 + 63 - last) % 64; last = $6; n += 1 } if ($1 != "") { delivered[$1] = n + 0; lost[$1] = missing + 0 }; next }
        $2 == "received" || $2 == "lost" || $2 == "refused" { $11 = delivered[$1]; $12 = lost[$1] }
        { print }' "$1" "$1"
}

# Checks a log and its picture: what it is about, delivered and missing, the file, and the log's options.
loses() { # WHAT LOSS FILE OPTION...
    local about=$1 wanted=$2 file=$3
    shift 3
    run log --in "$file" --format csv "$@"
    ended "$about" 0 log
    cp out loss.csv
    same "$about, the last PDU" "$wanted" "$(last_loss loss.csv)"
    same "$about, the summary" "$(loss_line "${wanted% *}" "${wanted#* }")" "$(grep ': delivered ' err)"
    same_file "$about, PDU by PDU" <(recounted loss.csv) loss.csv
    run coverage --in loss.csv
    ended "$about, the picture" 0 coverage
    same "$about, the line of totals" "$(loss_said "$wanted")" "$(said_least)"
    if said_loss | grep 'missing about' >/dev/null; then
        same "$about, the picture's figures" "${wanted% *} ${wanted#* }" "$(figure 'packets delivered') $(figure 'missing, at least')"
        same "$about, ticks are of the estimate" "$(said_about) about" "$(ticks | tr ' ' '\n' | awk '{ sum += $1 } END { print sum + 0 }') $(sed -n 's/.*>packets missing before, \(about\)<.*/\1/p' out)"
    else
        same "$about, when it is exact" "$(exact_line)" "$(tail -n 1 err)"
        same "$about, the picture's figures" "${wanted% *} ${wanted#* }" "$(figure 'packets delivered') $(figure missing)"
        same "$about, ticks" "$(growth loss.csv)" "$(ticks)"
    fi
}

# What the line of totals says of delivered and missing, without an estimate.
said_least() {
    said_loss | sed 's/missing about [^,]*, at least /missing /'
}

# What is missing by the line of totals: the estimate, where there is one.
said_about() {
    said_loss | sed -n 's/.* missing \(about \)\?\([0-9]*\).*/\2/p'
}

# A figure of the picture, by its words.
figure() {
    grep -A 1 ">$1</text>" out | sed -n 's/.*class="e".*>\([0-9]*\)<.*/\1/p'
}

# Where missing grows in a CSV, and by how much.
growth() {
    awk -F , '$2 == "received" || $2 == "lost" || $2 == "refused" { if ($12 > before) print $12 - before; before = $12 }' "$1" | tr '\n' ' '
}

# The numbers at the picture's ticks; the last tick is that of the legend.
ticks() {
    grep -A 1 'class="m"' out | sed -n 's/.*<text class="[nok]".*>\([0-9]*\)<.*/\1/p' | sed '$d' | tr '\n' ' '
}

# Drives over bad roads, with lost and refused PDUs and hit pieces: delivered and missing are all packets from the first delivered to the last, alone, in batches and
# with marks.
check_loss_drives() {
    local seed near=0 wanted
    make_numbered 600
    for seed in 1 2 3 4 5 6; do
        rm -f came places
        run channel --in numbered --seed "$seed" --loss 60 --bytes 5 --bursts 60 --out came --marks places
        run log --in came --format words
        cp out words
        wanted=$(places_logged words | loss_by_places)
        case $wanted in far*) continue ;; esac
        near=$((near + 1))
        loses "a drive, seed $seed" "$wanted" came
        same_in_batches "a drive with a loss column, seed $seed" came
        run log --in came --marks places --format words
        wanted=$(places_logged out | loss_by_places)
        loses "a drive with marks, seed $seed" "$wanted" came --marks places
    done
    same "drives with fewer than 64 missing between two" yes "$([ "$near" -ge 3 ] && echo yes || echo no)"
    check_loss_ends
}

# What is lost before the first packet delivered, or after the last, does not count.
check_loss_ends() {
    local size=202 pdus
    pdus=$(($(stat -c %s numbered) / size))
    { records 9 0; tail -c +$((9 * size + 1)) numbered; } >came
    run log --in came --format words
    loses "the first PDUs lost" "$(places_logged out | loss_by_places)" came
    same "the first PDUs lost: nothing is missing" 0 "$(last_loss loss.csv | cut -d ' ' -f 2)"
    { head -c $(((pdus - 9) * size)) numbered; records 9 0; } >came
    run log --in came --format words
    loses "the last PDUs lost" "$(places_logged out | loss_by_places)" came
    same "the last PDUs lost: nothing is missing" 0 "$(last_loss loss.csv | cut -d ' ' -f 2)"
    records 5 0 >came
    loses "all PDUs lost" "0 0" came
}

# So many packets missing in a row, by PDUs that are lost, for every count of PDUs up to some: below 64 all are counted, from there on those over 64 or 128,
# and the estimate has all.
check_loss_far() {
    local many size=202 gap wanted far=0
    make_numbered 300
    for ((many = 1; many <= 45; many += 4)); do
        { head -c $((5 * size)) numbered; records "$many" 0; tail -c +$(((5 + many) * size + 1)) numbered; } >came
        run log --in came --format words
        places_logged out >places.logged
        gap=$(awk 'NR > 1 && $1 - last - 1 > most { most = $1 - last - 1 } { last = $1 } END { print most + 0 }' places.logged)
        if [ "$gap" -gt 63 ]; then far=$((far + 1)); fi
        wanted="$(wc -l <places.logged) $((gap % 64))"
        loses "$gap packets missing in a row" "$wanted" came
        same "$gap packets missing in a row, the estimate" "$gap" "$(said_about)"
    done
    same "more than 63 were missing in a row" yes "$([ "$far" -ge 3 ] && [ "$far" -le 9 ] && echo yes || echo no)"
}

# Withheld PDUs between free ones: their packets count as missing.
check_loss_withheld() {
    local letters
    numbered 200 >row
    make_programs row 0 200 empty
    run log --in free --format words
    logged_packets out >row.packets
    letters=$(awk -v many="$programmed" 'BEGIN { while (length(all) < many) all = all "ffpffppppf"; print substr(all, 1, many) }')
    chosen "$letters" >mixed
    run log --in mixed --format words --entitled 0
    loses "withheld PDUs" "$(places_logged out | loss_by_places)" mixed --entitled 0
    same "withheld packets are missing" yes "$([ "$(last_loss loss.csv | cut -d ' ' -f 2)" -gt 50 ] && echo yes || echo no)"
    chosen "$(tr f p <<<"$letters")" >mixed
    loses "all withheld" "0 0" mixed --entitled 0
}

# Two recordings: the pair's loss column, and what is missing of each alone.
check_loss_second() {
    local seed
    make_numbered 600
    for seed in 1 2 3; do
        run channel --in numbered --seed "$seed" --loss 60 --bursts 100
        cp out one.pdus
        run channel --in numbered --seed $((seed + 50)) --loss 60 --bursts 100
        cp out two.pdus
        run log --in one.pdus --second two.pdus --format words
        loses "two recordings, seed $seed" "$(places_logged out | loss_by_places)" one.pdus --second two.pdus
        run log --in one.pdus --second two.pdus
        cp err pair.err
        run log --in one.pdus --format words
        same "the first alone, seed $seed" "$(places_logged out | loss_by_places)" "$(sed -n 's/.*first copies alone.*packets \([0-9]*\), missing \([0-9]*\)$/\1 \2/p' pair.err)"
        run log --in two.pdus --format words
        same "the second alone, seed $seed" "$(places_logged out | loss_by_places)" "$(sed -n 's/.*second copies alone.*packets \([0-9]*\), missing \([0-9]*\)$/\1 \2/p' pair.err)"
    done
}

# Draws lines of a log.
draws_lines() { # LINE...
    { echo "$older_title"; printf '%s\n' "$@"; } >lines.csv
    run coverage --in lines.csv
    ended "a log of $# lines" 0 coverage
}

# Ticks by the loss column alone: at the first PDU only where its packets are all that were delivered; counts that a log of one drive does not have.
check_loss_ticks() {
    local format
    draws_lines 0,received,0,96,,2,3 0,packet,1,9,,, 0,packet,5,9,,, 1,lost,,,,2,3 2,received,0,96,,3,103 2,packet,9,9,,, 3,received,0,96,,4,2103 3,packet,9,9,,,
    same "ticks by the loss column" "3 100 2000 " "$(ticks)"
    same "ticks by the loss column, the totals" "packets delivered 4, missing 2103 (99.8 % of both)" "$(said_loss)"
    draws_lines 0,received,0,96,,500,30 0,packet,1,9,,, 1,received,0,96,,501,31 1,packet,3,9,,,
    same "a receiver that had delivered packets before" "1 " "$(ticks)"
    same "a receiver that had delivered packets before, the totals" "packets delivered 501, missing 31 (5.8 % of both)" "$(said_loss)"
    draws_lines 0,lost,,,,4294967295,4294967295
    same "the largest counts" "packets delivered 4294967295, missing 4294967295 (50.0 % of both)" "$(said_loss)"
    same "the largest counts in the picture" "4294967295 4294967295" "$(figure 'packets delivered') $(figure missing)"
    draws_lines 0,lost,,,,0,0
    same "no packets, no share" "packets delivered 0, missing 0" "$(said_loss)"
    run log --in damaged
    same "the text has no loss column" 0 "$(grep -c 'delivered\|missing' out || true)"
    for format in text words csv; do
        run log --in damaged --format "$format"
        same "$format, the summary" "$(counted_loss log.csv)" "$(sed -n 's/.*: delivered \([0-9]*\), missing \([0-9]*\);.*/\1 \2/p' err)"
    done
}

# A log without a loss column is drawn with the same cells and bars, and no figure of packets.
check_loss_older() {
    bare log.csv >older.csv
    run coverage --in older.csv
    same "a log without a loss column, what is said" "barzhilup coverage: older.csv: has no loss column: no packets are counted
$(totals_of log.csv | sed 's/; packets delivered.*//')" "$(cat err)"
    ended "a log without a loss column" 0 coverage
    same "a log without a loss column, in the picture" 1 "$(grep -c '>the log has no loss column<' out || true)"
    same "a log without a loss column, no figures and no ticks" 0 "$(grep -c 'class="[mnok]"\|missing\|packets delivered<' out || true)"
    same "a log without a loss column, cells and bars" "$(grep '<rect\|<circle' picture.svg)" "$(grep '<rect\|<circle' out)"
    run coverage --in log.csv
    same "a log with one" 0 "$(cat out err | grep -c 'no loss column' || true)"
    older log.csv >counted.csv
    run coverage --in counted.csv
    same_file "a log in the columns of older ones" picture.svg out
    { echo "$older_title"; bare log.csv | sed 1d; } >mixed.csv
    run coverage --in mixed.csv
    ended "lines without the counts that the first line names" 1 coverage
    older log.csv | sed "1s/.*/pdu,kind,number,length,cause/" | grep -v ,end, >mixed.csv
    run coverage --in mixed.csv
    same "anything may stand in the cause of a log without a loss column" "barzhilup coverage: mixed.csv: has no loss column: no packets are counted" "$(sed -n 2p err)"
    ended "anything may stand in the cause of a log without a loss column" 0 coverage
}
