#!/usr/bin/env bash
# An update of Open vSwitch bridges under traffic: once by a plan, carried out by `planner apply`, and then the same changes at once, for comparison.
#
#   lab/end_to_end.sh FOLDER [WAIT [MILLISECONDS]]
#   lab/end_to_end.sh ring N [WAIT [MILLISECONDS]]
#   lab/end_to_end.sh ring-without-tags N [WAIT [MILLISECONDS]]
#
# FOLDER has topology.json, old.json, new.json and policy.json, as examples/square has; `ring N` makes the files of a ring of N switches, `ring-without-tags N`
# those of one in which the planner may use no tags. The plan is that of `pack`, or of `plan` where the program has no `pack`; BY names another command, and
# PLAN the file of a plan that is there already. WAIT is that of `planner apply` (1 s). With MILLISECONDS each link takes so long. The changes are made at once SHOTS times (5), each time within SPREAD seconds (0.2) in
# another order. PLANNER names another program than the built one; PAUSE is the time between two packets (0.002 s), FIRST_PORT
# the port of the first bridge (17100). Everything is on this machine: bridges of a userspace datapath that listen on the
# loopback, with ports that no interface of the machine has. What is started here is ended here.
#
# Exit status: 0 where the update by the plan came to its end and broke no packet.
set -u
here=$(cd "$(dirname "$0")" && pwd)
root=$here/..
planner=$root/planner
dir=$(mktemp -d -t planner-lab-XXXXXX)
traffic='' update=''
end() {
    for one in $traffic $update; do kill "$one" 2>/dev/null && wait "$one" 2>/dev/null; done
    "$here/bridges.sh" stop "$dir"
    rm -rf "$dir"
}
trap end EXIT
trap 'exit 1' INT TERM
fail() { echo "FAILED: $*"; exit 1; }

if [ "${1:-}" = ring ] || [ "${1:-}" = ring-without-tags ]; then
    name="$1 $2"; files=$dir
    python3 -B "$here/ring.py" "$2" "$dir" "${1#ring}" || fail "the files of the ring"
    shift 2
else
    name=$(basename "${1:?FOLDER, or ring N}"); files=$1
    shift
fi
wait=${1:-1} delay=${2:-}
files_of_update=("$files/topology.json" "$files/old.json" "$files/new.json" "$files/policy.json")

pour() { # begins the traffic, which is noted in the file $1
    python3 -B "$here/traffic.py" pour "$dir" "${files_of_update[@]}" "$1" & traffic=$!
    sleep 0.5
}
drain() { # ends the traffic when the new tables have seen some of it, and waits until no port has recorded anything for 2 s
    local before='' now
    sleep 0.5
    kill "$traffic"; wait "$traffic"; traffic=
    while now=$(cat "$dir"/*.rx | wc -c); [ "$now" != "$before" ]; do before=$now; sleep 2; done
}
make_plan() { # writes the plan, by the first of the commands that the program has
    local command status
    if [ -n "${PLAN:-}" ]; then cp "$PLAN" "$dir/made.json"; return; fi
    for command in ${BY:-pack plan}; do
        "$planner" "$command" "$@" >"$dir/made.json" 2>"$dir/said"
        status=$?
        [ "$status" = 2 ] || break
    done
    cat "$dir/said"
    return "$status"
}
judge() { python3 -B "$here/traffic.py" judge "$dir" "${files_of_update[@]}" "$1" "$2"; } # what became of the packets of the file $1; the sums go to the file $2
sums() { awk '{ sent += $1; broken += $2 } END { print sent " packets sent, " broken " broken" }' "$1"; }

"$here/bridges.sh" start "$dir" "$files/topology.json" "$delay" || fail "the bridges"
python3 -B "$here/traffic.py" load "$dir" "${files_of_update[@]:0:2}"
echo "== $name: the tables are read, and a plan is made from them"
"$planner" collect "$files/topology.json" --switches "$dir/switches" >"$dir/replies" || fail collect
"$planner" import "$files/topology.json" "$dir/replies" >"$dir/read.json" || fail import
by_plan=("$files/topology.json" "$dir/read.json" "$files/new.json" "$files/policy.json" "$dir/made.json")
make_plan "${by_plan[@]:0:4}" || fail "no plan"
"$planner" check "${by_plan[@]}"
echo "== $name: by the plan"
pour "$dir/planned"
"$planner" apply "${by_plan[@]}" "$dir/input" --switches "$dir/switches" --wait "$wait" 2>&1 & update=$!
wait "$update" || fail "planner apply"
update=
drain
judge "$dir/planned" "$dir/by-plan"
"$planner" drive "${by_plan[@]}" "$dir/input" | tail -n 1
for seed in $(seq "${SHOTS:-5}"); do
    echo "== $name: at once, in order $seed"
    python3 -B "$here/traffic.py" load "$dir" "${files_of_update[@]:0:2}"
    sleep 0.5
    pour "$dir/careless$seed"
    python3 -B "$here/traffic.py" at_once "$dir" "${files_of_update[@]}" "$seed" "${SPREAD:-0.2}"
    drain
    judge "$dir/careless$seed" "$dir/at-once"
done
echo "== $name"
echo "by the plan, wait $wait s: $(sums "$dir/by-plan")"
[ "${SHOTS:-5}" = 0 ] || echo "at once, ${SHOTS:-5} times within ${SPREAD:-0.2} s: $(sums "$dir/at-once")"
sums "$dir/by-plan" | grep -q ' 0 broken$'
