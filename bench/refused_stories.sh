#!/usr/bin/env bash
# Runs tests that tell a story with each allocation refused in turn: a call that is refused changes nothing, and made once
# more it does what it should have done, so each run of the test passes.
# It needs a C compiler, for the few lines that refuse. The first run proves and builds the crates of tests.
# usage: bench/refused_stories.sh [CRATE TEST ...]
set -eu
. "$(dirname "$0")/room.bash"
[ $# -gt 0 ] || set -- \
  sup_value_tests assignment::a_refused_touch_changes_nothing_and_can_be_made_again \
  sup_local_sup_tests refused::a_refused_growth_changes_nothing_and_the_call_can_be_made_again \
  sup_local_sup_tests refused_changes::a_refused_growth_changes_nothing_or_all_that_was_planned \
  sup_links_tests scripts::lost_doubled_and_held_messages_come_by_the_script \
  sup_links_tests scripts::a_message_goes_behind_the_copies_of_the_one_it_waits_for \
  sup_wire_tests refused::a_refused_text_of_a_message_is_written_or_read_when_asked_again \
  sup_wire_tests refused::a_refused_text_of_an_image_is_written_or_read_when_asked_again \
  sup_wire_tests refused::a_fault_is_told_when_asked_again \
  sup_station_tests refused::an_interval_after_a_restart_is_sent_over_a_refused_growth \
  sup_station_tests refused::an_add_goes_on_beside_a_removal_over_a_refused_growth \
  sup_station_tests rows::a_failed_save_leaves_the_dot_free \
  sup_station_tests rows::a_restart_whose_save_fails_leaves_the_node_stopped \
  sup_station_tests rows::an_overwritten_interval_is_sent_whole \
  sup_station_tests rows::a_repeated_delivery_is_acknowledged_again \
  sup_node_gate_tests refused::a_call_refused_for_memory_leaves_no_entry_and_is_made_when_asked_again \
  sup_node_gate_tests bound::a_gate_enters_refusals_and_stops_at_its_bound \
  sup_world_tests refused::a_world_refused_for_memory_is_made_when_asked_again \
  sup_world_tests refused::a_step_refused_for_memory_changes_nothing_and_is_made_when_asked_again \
  sup_world_tests refused::a_run_refused_for_memory_makes_no_step_and_is_made_when_asked_again \
  sup_world_tests refused::a_settling_refused_for_memory_is_ended_when_asked_again \
  sup_world_tests travels::an_interval_after_a_restart_is_sent \
  sup_world_tests travels::an_add_beside_a_removal_stays \
  sup_world_tests refusals::each_refusal_has_its_place \
  sup_world_tests rows::restarts_beyond_the_period_dont_count \
  sup_world_tests rows::restarts_the_period_apart_still_count \
  sup_world_tests rows::names_follow_their_child \
  sup_world_tests rows::a_member_leaves_rejoins_and_restarts \
  sup_program_tests memory::a_refused_allocation_ends_the_run_or_changes_nothing \
  sup_program_tests memory::a_refused_allocation_ends_the_run_or_refuses_a_step \
  sup_program_tests memory::a_refused_allocation_ends_the_run_or_a_settling \
  sup_program_tests memory::a_refused_allocation_ends_a_placement_or_changes_nothing
"${CC:-cc}" -shared -fPIC -O1 -o "$work/refuse.so" "$top/bench/refuse_allocation.c" -ldl

while [ $# -ge 2 ]; do
  crate=$1
  story=$2
  shift 2
  tests=$top/crates/$crate/out/${crate}_tests
  [ -x "$tests" ] || (cd "$top/crates/$crate" && rt test >"$work/built")
  refused=0
  while :; do
    : >"$work/mark"
    status=0
    REFUSED=$((refused + 1)) LD_PRELOAD=$work/refuse.so "$tests" "$story" >"$work/output" 2>&1 9>"$work/mark" || status=$?
    [ -s "$work/mark" ] || break
    refused=$((refused + 1))
    if [ "$status" != 0 ]; then
      echo "$story: allocation $refused refused: status $status"
      cat "$work/output"
      exit 1
    fi
  done
  echo "$story: $refused allocations, each refused in turn, and the story ends well"
done
