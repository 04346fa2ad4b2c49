# The summary of a log from its CSV: the lines with which the run ended, also where the CSV was cut. Sourced by run.sh.

# The lines of a run's summary among all that it said.
summed() {
    grep -E '^barzhilup log: (PDUs [0-9]+:|headers |packets |delivered |  )' "$1"
}

# The summary of a run is that of its CSV.
sums_up() { # ABOUT OPTION...
    run_to summed.csv log "${@:2}" --format csv
    summed err >wanted
    run log --summary summed.csv
    said "the summary of $1" 0 log ""
    same_file "the summary of $1" wanted out
}

check_summary() {
    make_drive
    { pdus 0 3; record 0; record 95; record 96; cat other; pdus 4 5; record 20000; } >mixed
    sums_up "PDUs as sent" --in sent
    sums_up "a road" --in damaged
    sums_up "no PDUs" --in empty
    sums_up "a drive" --in drive
    sums_up "lost and refused PDUs" --in mixed
    same "lost and refused PDUs have lines" 3 "$(grep -c '^barzhilup log:   refused with' wanted)"
    sums_up "frames" --in mixed --batch 3
    sums_up "wrong CRCs" --in sent --crc-start 7
    sums_up "a pair" --in sent --second damaged
    sums_up "withheld PDUs" --in sent --entitled none
    check_summary_cut
    check_summary_killed
    check_summary_inputs
    check_summary_wrong
    check_summary_alone
}

# A CSV that is cut, between lines or inside one: the summary of the lines that are whole.
check_summary_cut() {
    local bytes size title
    run_to summed.csv log --in mixed --format csv
    size=$(stat -c %s summed.csv)
    title=$(head -n 1 summed.csv | wc -c)
    for ((bytes = title; bytes < size - 1; bytes += 29)); do
        head -c "$bytes" summed.csv >cut.csv
        head -n "$(wc -l <cut.csv)" cut.csv >lines.csv
        run log --summary lines.csv
        said "a summary of $bytes bytes, whole lines" 0 log "barzhilup log: lines.csv: has no last line: the log is not whole"
        same "a summary of $bytes bytes, PDUs" "barzhilup log: PDUs $(grep -cE '^[0-9]+,(received|lost|refused),' lines.csv || true):" "$(head -n 1 out | grep -o '.*PDUs [0-9]*:')"
        same "a summary of $bytes bytes, packets" "$(grep -c "^[0-9]*,packet," lines.csv || true)" "$(sed -n 's/^barzhilup log: packets \([0-9]*\),.*/\1/p' out)"
        cp out wanted
        run log --summary cut.csv
        said "a summary of $bytes bytes" 0 log "barzhilup log: cut.csv: has no last line: the log is not whole"
        same_file "a summary of $bytes bytes" wanted out
    done
    check_summary_ends
}

# The last line without its end is whole; with a part of its count it is not.
check_summary_ends() {
    run log --summary summed.csv
    cp out wanted
    head -c -1 summed.csv >cut.csv
    run log --summary cut.csv
    said "a last line without its end" 0 log ""
    same_file "a last line without its end" wanted out
    head -c -2 summed.csv >cut.csv
    run log --summary cut.csv
    said "a last line without its last digit" 0 log "barzhilup log: cut.csv: has no last line: the log is not whole"
    same_file "a last line without its last digit" wanted out
}

# A run that is killed: what it logged is summed up.
check_summary_killed() {
    run log --in damaged --format csv
    summed err >wanted
    { cat damaged; sleep 1; } | timeout 0.5 "$program" log --format csv >killed.csv 2>err || true
    same "a run that is killed says no summary" "" "$(cat err)"
    run log --summary killed.csv
    said "a run that is killed" 0 log "barzhilup log: killed.csv: has no last line: the log is not whole"
    same_file "a run that is killed" wanted out
}

# Standard input, the columns of older logs, and what a spreadsheet saved.
check_summary_inputs() {
    run log --summary log.csv
    cp out wanted
    run log --summary - <log.csv
    same_file "a summary of standard input" wanted out
    run log --summary=log.csv
    same_file "a summary with an equals sign" wanted out
    older log.csv >old.csv
    run log --summary old.csv
    said "a summary of an older log" 0 log ""
    same_file "a summary of an older log" wanted out
    { printf '\357\273\277'; tr , ';' <log.csv | sed 's/$/\r/'; } >sheet.csv
    run log --summary sheet.csv
    said "a summary of a spreadsheet's" 0 log ""
    same_file "a summary of a spreadsheet's" wanted out
    bare log.csv >old.csv
    stops "barzhilup log: old.csv: is an older log, without delivered and missing: they are not known" log --summary old.csv
}

# Files that are none, or not in order.
check_summary_wrong() {
    local words="is none of the CSV of barzhilup log, or not in its place"
    stops "barzhilup log: nowhere.csv: No such file or directory" log --summary nowhere.csv
    stops "barzhilup log: empty: line 1 $words" log --summary empty
    stops "barzhilup log: sent: line 1 $words" log --summary sent
    head -c 20 log.csv >wrong.csv
    stops "barzhilup log: wrong.csv: line 1 $words" log --summary wrong.csv
    sed '2s/^0,/1,/' log.csv >wrong.csv
    stops "barzhilup log: wrong.csv: line 2 $words" log --summary wrong.csv
    { cat log.csv; sed -n 2p log.csv; } >wrong.csv
    stops "barzhilup log: wrong.csv: line $(($(wc -l <log.csv) + 1)) $words" log --summary wrong.csv
    run_to /dev/full log --summary log.csv
    said "a summary to a full device" 1 log "barzhilup log: standard output: No space left on device"
}

# It goes with no other option, in whatever order.
check_summary_alone() {
    local option
    for option in "--in sent" "--out new" "--second sent" "--save new" "--format csv" "--mode 0" "--mode auto" "--batch 2" "--force" "--resync" "--skip" "--packets new" "--sent packets" "--compared new" "--entitled none"; do
        # shellcheck disable=SC2086
        wrong "barzhilup log: --summary: goes with no other option" log --summary log.csv $option
        # shellcheck disable=SC2086
        wrong "barzhilup log: --summary: goes with no other option" log $option --summary=log.csv
        # shellcheck disable=SC2086
        wrong "barzhilup log: --summary: goes with no other option" log --summary=log.csv $option
    done
    wrong "barzhilup log: --summary: value missing" log --summary
    wrong "barzhilup log: --summary: value missing" log --summary ''
    wrong "barzhilup log: --summary: value missing" log --summary=
}
