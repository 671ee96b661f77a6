#!/usr/bin/env bash
# Three PostgreSQL servers on this machine, to try a failover: a primary, and two standbys that follow it. A commit is acknowledged once the primary and one of
# the standbys have it on disk.
#
#     three.sh start FOLDER [PORT]   makes them in an empty folder and starts them, at PORT and the two ports after it [default: 6401]
#     three.sh address FOLDER        prints where clients find the primary, for psql -d and perform.py --database
#     three.sh kill FOLDER           kills the primary, with signal 9
#     three.sh promote FOLDER        makes the standby that has received more the primary; the other follows it
#     three.sh rejoin FOLDER         makes the killed server a standby, with a new copy of the primary
#     three.sh async FOLDER          from now on no commit waits for a standby
#     three.sh sync FOLDER           from now on each does again
#     three.sh stop FOLDER           stops them
#
# start, promote and rejoin end once the standbys have what the primary has written, so that a commit may wait for any of them; or they say which one follows
# nobody.
#
# They listen to this machine only, and let in whoever asks. PostgreSQL does not run as root, who therefore runs it as the user postgres. It has to be version
# 13 or later.
set -euo pipefail

USAGE="three.sh start|address|kill|promote|rejoin|async|sync|stop FOLDER [PORT]"
ANY_ONE="ANY 1 (s0, s1, s2)"
# A checkpoint keeps so much for standbys that have not received it yet. What it removes they cannot get any more, so they would follow nobody.
KEPT=128MB
# Of what a primary sends, also those that have not found it yet.
RECEIVERS="SELECT count(*) FROM pg_stat_activity WHERE backend_type = 'walreceiver'"
# So many seconds a server has to do what is waited for.
PATIENCE=120
SETTINGS="listen_addresses = '127.0.0.1'
unix_socket_directories = ''
synchronous_standby_names = '$ANY_ONE'
wal_retrieve_retry_interval = '100ms'
wal_keep_size = '$KEPT'
dynamic_shared_memory_type = mmap"
command=${1:?$USAGE} folder=$(realpath -m "${2:?$USAGE}")
# Debian has only the clients in PATH.
for bin in /usr/lib/postgresql/*/bin; do PATH=$bin:$PATH; done
export PGCONNECT_TIMEOUT=10 PGCTLTIMEOUT=$PATIENCE
cd /

fail() {
    echo "three.sh: $1" >&2
    exit 1
}

as_owner() {
    if [ "$(id -u)" = 0 ]; then runuser -u postgres -- "$@"; else "$@"; fi
}

# What a server, 0, 1 or 2, says to statements.
ask() {
    psql -h 127.0.0.1 -p $((port + $1)) -U auction -d postgres -qAtX -v ON_ERROR_STOP=1 <<< "$2"
}

# The servers that answer `f` (a primary) or `t` (a standby) when asked whether they follow another.
servers() {
    local server
    for server in 0 1 2; do
        if [ "$(ask "$server" "SELECT pg_is_in_recovery()" 2> /dev/null)" = "$1" ]; then echo "$server"; fi
    done
}

start_server() {
    as_owner pg_ctl -D "$folder/$1" -l "$folder/log.$1" -o "-p $((port + $1))" -w -s start
}

# Where a server finds another, and under which name it is waited for.
source_of() {
    echo "host=127.0.0.1 port=$((port + $2)) user=auction application_name=s$1"
}

add_standby() {
    as_owner pg_basebackup -D "$folder/$1" -d "$(source_of "$1" "$2")" -R -X stream -c fast --no-sync
    start_server "$1"
    await_standby "$1" "$2"
}

# Waits until a standby has what the primary has written, and is sent what it writes from now on: commits count only on such a one.
await_standby() {
    local written
    written=$(ask "$2" "SELECT pg_current_wal_flush_lsn()")
    await "$2" "SELECT count(*) > 0 FROM pg_stat_replication WHERE application_name = 's$1' AND state = 'streaming' AND flush_lsn >= '$written'" t \
        "server $1 does not follow server $2; $folder/log.$1 says why"
}

# Waits until a server has this answer to a question, or fails.
await() {
    local end=$((SECONDS + PATIENCE))
    until [ "$(ask "$1" "$2")" = "$3" ]; do
        [ $SECONDS -lt $end ] || fail "$4"
        sleep 0.02
    done
}

set_on() {
    ask "$1" "ALTER SYSTEM SET $2 = '$3'; SELECT pg_reload_conf();" > /dev/null
}

start() {
    mkdir -p "$folder"
    [ -z "$(ls -A "$folder")" ] || fail "$folder is not empty"
    echo "$port" > "$folder/port"
    if [ "$(id -u)" = 0 ]; then chown postgres "$folder"; fi
    as_owner initdb -D "$folder/0" -A trust -U auction --no-sync --locale=C -E UTF8 > /dev/null
    as_owner tee -a "$folder/0/postgresql.conf" <<< "$SETTINGS" > /dev/null
    start_server 0
    add_standby 1 0
    add_standby 2 0
}

kill_primary() {
    local primary
    primary=$(servers f)
    [ -n "$primary" ] || fail "no primary is alive"
    kill -9 "$(head -n 1 "$folder/$primary/postmaster.pid")"
}

promote() {
    local standbys standby new
    [ -z "$(servers f)" ] || fail "the primary is alive"
    standbys=$(servers t)
    [ -n "$standbys" ] || fail "no standby is alive"
    # A primary that only seems dead can acknowledge nothing once neither hears it.
    for standby in $standbys; do
        set_on "$standby" primary_conninfo ""
    done
    for standby in $standbys; do
        await "$standby" "$RECEIVERS" 0 "server $standby does not leave the old primary"
    done
    new=$(for standby in $standbys; do echo "$(received "$standby") $standby"; done | sort -n | tail -n 1 | cut -d ' ' -f 2)
    [ "$(ask "$new" "SELECT pg_promote(true, $PATIENCE)")" = t ] || fail "server $new is not promoted"
    for standby in $standbys; do
        [ "$standby" = "$new" ] || follow "$standby" "$new"
    done
}

follow() {
    set_on "$1" primary_conninfo "$(source_of "$1" "$2")"
    await_standby "$1" "$2"
}

# How far a standby's copy goes, in bytes.
received() {
    ask "$1" "SELECT greatest(pg_last_wal_receive_lsn(), pg_last_wal_replay_lsn()) - '0/0'"
}

rejoin() {
    local server primary
    primary=$(servers f)
    [ -n "$primary" ] || fail "no primary is alive"
    for server in $(killed_servers); do
        bury "$server"
        rm -rf "${folder:?}/$server"
        add_standby "$server" "$primary"
    done
}

killed_servers() {
    local server alive
    alive="$(servers f) $(servers t)"
    for server in 0 1 2; do
        [[ $alive == *$server* ]] || echo $server
    done
}

# Removes the segment of shared memory, number 2 in line 7, that a killed server leaves.
bury() {
    as_owner ipcrm -m "$(sed -n '7s/.* //p' "$folder/$1/postmaster.pid")" 2> /dev/null || true
}

wait_for() {
    local server
    for server in $(servers f) $(servers t); do
        set_on "$server" synchronous_standby_names "$1"
    done
}

stop() {
    local server dead
    dead=$(killed_servers)
    for server in $(servers f) $(servers t); do
        as_owner pg_ctl -D "$folder/$server" -m immediate -s stop
    done
    for server in $dead; do
        bury "$server"
    done
}

case $command in
    start | address | kill | promote | rejoin | async | sync | stop) ;;
    *) fail "$USAGE" ;;
esac
if [ "$command" = start ]; then
    port=${3:-6401}
else
    [ -f "$folder/port" ] || fail "$folder has no servers"
    port=$(cat "$folder/port")
fi
command -v initdb > /dev/null || fail "initdb is not installed; Debian has it in postgresql"
case $command in
    start | promote | rejoin | stop) "$command" ;;
    address) echo "host=127.0.0.1,127.0.0.1,127.0.0.1 port=$port,$((port + 1)),$((port + 2)) user=auction dbname=postgres target_session_attrs=read-write connect_timeout=10" ;;
    kill) kill_primary ;;
    async) wait_for "" ;;
    sync) wait_for "$ANY_ONE" ;;
esac
