#!/usr/bin/env bash
# Checks what the program barzhilup says and its exit status, and that it loses nothing: its options and errors, refusals in words, cut, empty,
# full and closed files, files that are there already, pipes, terminals, and a log that is killed. Status 0 is all done; with 1 the last line is
# `barzhilup SUBCOMMAND: stopped early`; with 2 it was asked wrongly, the last line is `try 'barzhilup SUBCOMMAND --help'`, and nothing is opened.
# Needs the built program: in target/bin under the project's root, or in the directory that BARZHILUP_BIN names. A check that is right prints
# nothing.
set -Eeuo pipefail
trap 'echo "programs: stopped at line $LINENO of ${BASH_SOURCE[0]}" >&2' ERR

here=$(cd "$(dirname "$0")" && pwd)
data=$here/data
program=${BARZHILUP_BIN:-$here/../../target/bin}/barzhilup
if [ ! -x "$program" ]; then
    echo "programs: no $program; build it first (scripts/build), or name its directory in BARZHILUP_BIN" >&2
    exit 1
fi
program=$(readlink -f "$program")
subs=(generate channel log coverage latency join)
for part in harness usage files generate log marks second registers batches bursts road stream coverage columns loss page particulars entitled resume beside damaged summary latency join; do
    # shellcheck source=/dev/null
    . "$here/$part.sh"
done

work=$(mktemp -d)
trap 'rm -rf "$work"' EXIT
cd "$work"

prepare
mkfifo waiting
mkdir folder
for sub in "${subs[@]}"; do
    check_help "$sub"
    check_options "$sub"
    check_unopened "$sub"
    check_numbers "$sub"
    check_equals "$sub"
    check_dashes "$sub"
    check_taken "$sub"
    check_recording "$sub"
    check_forced "$sub"
    check_forced_taken "$sub"
    check_forced_kinds "$sub"
    check_closed "$sub"
done
check_program
check_program_full
check_subcommands
check_equal_texts
check_values
check_files
check_dash_psd
check_empty
check_settings
check_packets
check_frames_resync
check_example
check_many_pieces
check_unlisted
check_drive
check_many_refused
check_hole
check_last_line
check_order
check_marks_written
check_marks_worth
check_marks_bound
check_marks_refused
check_marks_other_mode
check_marks_files
check_marks_dashes
check_marks_made
check_second_same
check_second_turns
check_second_drives
check_second_pieces
check_second_differ
check_second_refused
check_second_lengths
check_second_asked
check_second_picture
check_register_values
check_register_default
check_register_refused
check_register_all
check_register_drive
check_register_said
check_batches
check_batches_drives
check_batches_long
check_batches_files
check_batches_asked
check_bursts_seeds
check_bursts_places
check_bursts_refused
check_bursts_drives
check_road_seeds
check_road_twice
check_road_swap
check_road_cut
check_road_marks
check_road_log
check_stream_tag
check_stream_repeat
check_stream_wrong
check_changes
check_changes_wrong
check_changes_stream
check_stored
check_lines
check_line_ends
check_not_whole
check_totals log.csv
check_totals drive.csv
check_wrong_crcs
check_no_pdus
check_picture
check_columns_same
check_columns_text
check_columns_saved
check_loss_drives
check_loss_far
check_loss_withheld
check_loss_second
check_loss_ticks
check_loss_older
check_page_estimate
check_page_turns
check_page_asked
check_page_texts
check_page_lengths
check_page_psd
check_page_psd_none
check_page_psd_many
check_page_times
check_page_rows
check_page_strip
check_page_longest
check_entitled_values
check_entitled_all
check_entitled_none
check_entitled_spans
check_entitled_drives
check_entitled_two
check_entitled_noted
check_entitled_kept
check_entitled_pairs
check_resume_cuts
check_resume_kinds
check_resume_chain
check_resume_said
check_resume_words
check_resume_refused
check_resume_asked
check_resume_files
check_resume_long
check_resume_unsaved
check_beside_whole
check_beside_frames
check_beside_drives
check_beside_asked
check_beside_made
check_beside_output
check_sent_drives
check_sent_again
check_sent_disorder
check_sent_alike
check_sent_far
check_sent_never
check_sent_files
check_sent_early
check_long_records
check_long_channel
check_resync
check_mode_auto
check_summary
check_latency_table
check_latency_values
check_latency_random
check_latency_text
check_latency_strange
check_latency_refused
check_latency_option
check_latency_packets
check_latency_packets_refused
check_latency_picture
check_latency_made
check_join_records
check_join_frames
check_join_refused
check_join_files
check_join_long
check_join_whole
check_join_drive
check_cuts
check_cut_files
check_full_devices
check_pipes
check_twice
check_killed text
check_killed words
check_killed json
check_killed_picture
check_terminals
echo "programs: $checks checks, $failed failed"
exit $((failed > 0))
