#!/usr/bin/env bash
# Bridges of Open vSwitch for a topology, in a userspace datapath without any interface of the machine.
#
#   bridges.sh start DIR TOPOLOGY [MILLISECONDS]    the daemons in DIR, and a bridge for each switch. Its ports are joined over unix sockets, and
#                                                   record what comes and goes. Switch i, from 0, listens at port FIRST_PORT + i of the loopback
#                                                   (17100 + i) and has the datapath id i + 1. DIR/switches is the file of switches. With
#                                                   MILLISECONDS each link takes so long
#   bridges.sh stop DIR                             ends what was started in DIR, by the process ids
set -eu
here=$(cd "$(dirname "$0")" && pwd)
command=$1 dir=$(cd "$2" && pwd) topology=${3:-} delay=${4:-}
export OVS_RUNDIR=$dir OVS_LOGDIR=$dir OVS_DBDIR=$dir PATH=$PATH:/usr/sbin
case $command in
start)
    ovsdb-tool create "$dir/conf.db" /usr/share/openvswitch/vswitch.ovsschema
    ovsdb-server "$dir/conf.db" --remote=punix:"$dir/db.sock" --pidfile="$dir/ovsdb-server.pid" --unixctl="$dir/ovsdb-server.ctl" --log-file="$dir/ovsdb.log" --detach >/dev/null 2>&1
    ovs-vsctl --db="unix:$dir/db.sock" --no-wait init
    ovs-vswitchd "unix:$dir/db.sock" --enable-dummy --disable-system --pidfile="$dir/ovs-vswitchd.pid" --unixctl="$dir/ovs-vswitchd.ctl" --log-file="$dir/vswitchd.log" --detach >/dev/null 2>&1
    if [ -n "$delay" ]; then
        python3 -B "$here/slow_links.py" "$dir" "$topology" "$delay" >"$dir/slow_links.log" 2>&1 &
        echo $! >"$dir/slow_links.pid"
        for _ in $(seq 50); do [ -s "$dir/slow_links.log" ] && break; sleep 0.1; done
    fi
    python3 -B "$here/traffic.py" bridges "$dir" "$topology" "${delay:+slow}" >"$dir/commands"
    while read -r line; do
        # shellcheck disable=SC2086   # the line has many words
        timeout 60 ovs-vsctl --db="unix:$dir/db.sock" $line
    done <"$dir/commands"
    ;;
stop)
    for one in ovs-vswitchd ovsdb-server; do
        [ -f "$dir/$one.pid" ] || continue
        pid=$(cat "$dir/$one.pid")
        timeout 10 ovs-appctl -t "$dir/$one.ctl" exit >/dev/null 2>&1 || true
        for _ in $(seq 25); do [ -d "/proc/$pid" ] || break; sleep 0.2; done
        [ ! -d "/proc/$pid" ] || kill "$pid"
    done
    [ ! -f "$dir/slow_links.pid" ] || kill "$(cat "$dir/slow_links.pid")" 2>/dev/null || true
    ;;
esac
