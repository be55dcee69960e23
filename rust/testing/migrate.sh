# A guest goes from QEMU to QEMU under load, with its share: sourced by ./test. A journey is one
# guest's, over several servers in turn. Each migration's outcome is a line of WORK/migrations:
# from, to, outcome, and QEMU's milliseconds in all and of standing still. Outcomes:
#   moved      the guest went on there
#   nudged     it did so only after `stop` and `cont`: a fault
#   refused    a file that was removed wasn't forgotten yet, and no path leads to it: the guest goes
#   on here, as over virtiofsd failed     anything else
# The logs of a journey on which one failed or was nudged are kept in WORK/kept.

lists_sh=$here/testing/guest/lists.sh # `here` is a stop of a journey later

# What a monitor prints comes to `said` of its folder.
listen() {
    (
        until [ -p "$1/monitor.out" ]; do sleep 0.1; done
        cat "$1/monitor.out" >> "$1/said" 2> "$work/none"
    ) &
}

is_alive() { kill -0 "$1" 2> "$work/none"; }

# Whether the source says that its guest is gone.
is_gone() {
    for _ in $(seq "${GUEST_SECONDS:-900}"); do
        say "$1" 'info migrate'
        sleep 0.5
        ! grep -aq 'Migration status: completed' "$1/said" || return 0
        ! grep -aq 'Migration status: failed' "$1/said" || return 1
    done
    return 1
}

# Whether the guest tells another line of this kind, within PATIENCE and as long as its QEMU lives.
tells() {
    local before
    before=$(grep -c "^$3" "$1/console" 2> "$work/none" || true)
    for _ in $(seq $((4 * ${PATIENCE:-180}))); do
        [ "$(grep -c "^$3" "$1/console" 2> "$work/none" || true)" = "$before" ] || return 0
        is_alive "$2" || return 1
        sleep 0.25
    done
    return 1
}

# QEMU's milliseconds, by the name that its monitor has for them.
milliseconds() { tr -d '\r' < "$1/said" 2> "$work/none" | sed -n "s/^$2: \([0-9]*\) ms.*/\1/p" |
    tail -n 1 | grep . || echo -; }

# A server and a QEMU in a folder of their own, the next stop of a journey: sets `next` and its kin.
# With a word more the guest comes there by the folder's `stream`.
begin_stop() {
    local incoming=() control=()
    next_kind=$1 next=$journey/$((++stops))
    mkdir -p "$next"
    [ -z "${REPLACES:-}" ] || control=(--control-socket="$next/control")
    start_server "$1" "$next/socket" "$next/server" "${words[@]}" "${control[@]}" || return 1
    next_server=$server
    [ $# = 1 ] || incoming=(-incoming "unix:$next/stream")
    qemu "$next" "$scenario ${kernel:-}" "$next/socket" -m 256M -no-reboot -device "$(device)" \
        "${incoming[@]}" &
    next_qemu=$!
    listen "$next"
}

settle() { here=$next here_kind=$next_kind here_server=$next_server here_qemu=$next_qemu; }

# The guest is gone from here, says QEMU here: sets `outcome`. One that stands still there is
# stopped and resumed once.
arrive() {
    outcome=moved
    if ! tells "$next" "$next_qemu" READER; then
        outcome=failed
        if ! is_alive "$next_qemu"; then
            stay
            return
        fi
        say "$next" stop cont
        ! tells "$next" "$next_qemu" READER || outcome=nudged
    fi
    say "$here" quit
    wait "$here_qemu" || true
    wait "$here_server" || failure "$here_kind to $next_kind: the source's daemon ended with $?"
    settle
}

# It wasn't taken there: whether it goes on here, and what kept it is a file that is gone. QEMU says
# that a guest is gone as soon as it has sent all, so it may have to be resumed.
stay() {
    wait "$next_qemu" || true
    wait "$next_server" || true
    say "$here" cont
    ! grep -q 'has lost inode' "$next/server" || ! tells "$here" "$here_qemu" READER ||
        outcome=refused
    : > "$here/said"
}

# One migration, to a server of this kind.
hop() {
    local from=$here_kind to=$1 source=$here
    outcome=failed
    [ "$scenario" != migrate_lists ] || stay_awhile "$to"
    begin_stop "$to" incoming || return 0
    for _ in $(seq 300); do
        [ ! -S "$next/stream" ] || break
        sleep 0.1
    done
    if [ -n "${REPLACES:-}" ]; then
        server=$here_server
        replace_server "$here/control" "$here/server" "${words[@]}"
        here_server=$server
    fi
    # A busy host takes long to come to an end.
    say "$source" 'migrate_set_parameter downtime-limit 5000' "migrate unix:$next/stream"
    if is_gone "$source"; then arrive; else stay; fi
    [ "$here_kind" = virtiofsd ] || rm -f "$share/work/quiet"
    echo "$from $to $outcome $(milliseconds "$source" 'total time')" \
        "$(milliseconds "$source" downtime)" >> "$work/migrations"
    case $outcome in failed | nudged)
        failure "from $from to $to: $outcome:" \
            "$(tail -n 3 "$source/said" "$next"/{server,qemu} 2> "$work/none")"
        ;;
    esac
}

# What the guest did on its way, at all stops.
check_journey() {
    run=$journey
    cat $(seq -f "$journey/%g/console" "$stops") 2> "$work/none" | tr -d '\r' > "$run/lines"
    grep -q '^== end' "$run/lines" || failure "$scenario: the guest didn't come to its end"
    if [ "$scenario" = migrate_full ]; then
        grep -q '^TAKEN .*oo many open files' "$run/lines" ||
            failure "$scenario: the guest has descriptors left"
        all_are "$scenario" BIG "$(sum "$share/files/m8")"
        return
    fi
    if [ "$scenario" = migrate_lists ]; then
        check_lists
        return
    fi
    grep -q '^HELD before after' "$run/lines" ||
        failure "$scenario: a file that was held open lost its words"
    ! grep '^FAILED' "$run/lines" || failure "$scenario: a file isn't made"
    grep -q '^FLAGS good' "$run/lines" || failure \
        "$scenario: an open file has other bytes: $(grep '^CORRUPT' "$run/lines" | head -n 1)"
    all_are "$scenario" READER "$(sum "$share/files/m1")"
}

# A guest makes new files at each stop. Before it goes to virtiofsd it no longer changes lists and
# labels: there a SETXATTR would end in a panic, since virtiofsd's state has no options of INIT.
stay_awhile() {
    [ "$1" != virtiofsd ] || : > "$share/work/quiet"
    for _ in 1 2; do tells "$here" "$here_qemu" READER || true; done
}

# The host's functions that make and show lists and labels, over a directory.
of_lists() {
    (
        umask 022
        setfacl() { (other /usr/bin/setfacl "$@"); }
        getfacl() { (other /usr/bin/getfacl "$@"); }
        getfattr() { (other /usr/bin/getfattr "$@"); }
        . "$lists_sh"
        "$@"
    )
}

# What the guest is to find, of a directory beside the share.
make_wanted() {
    rm -rf "$work/wanted"
    of_lists make_lists "$work/wanted"
    of_lists lists_of "$work/wanted" > "$share/work/wanted"
    of_lists wanted_labels >> "$share/work/wanted"
}

# What the host finds, and the label that a new file had at each stop: at a virtiofsd to which the
# guest went it has none, and SELinux takes it for one of the share's own.
check_lists() {
    local dir stop label
    ! grep '^FAILED' "$run/lines" || failure "$scenario: lists or labels"
    all_are "$scenario" READER "$(sum "$share/files/m1")"
    for dir in "$share"/work/lists/*; do
        { of_lists lists_of "$dir" && of_lists labels_of "$dir"; } |
            diff "$share/work/wanted" - || failure "$scenario: on the host $dir is another"
    done
    for stop in $(seq "$stops"); do
        label=file_t
        [ "$stop" = 1 ] || [ "${kinds[stop - 1]}" = ours ] || label=shared_t
        [ "$(tr -d '\r' < "$run/$stop/console" | sed -n 's/^LABEL //p' | tail -n 1)" = $label ] ||
            failure "$scenario: at stop $stop a new file hasn't the label $label"
    done
    echo "$scenario: $(find "$share/work/lists" -mindepth 1 -maxdepth 1 | wc -l) directories"
}

# A guest with this scenario begins at the first server of these and goes to the others in turn.
# `words` of the daemons may be set.
travel() {
    local scenario=$1 kind kinds=("${@:2}")
    shift
    journey=$work/journey stops=0
    rm -rf "$journey"
    make_files
    [ "$scenario" != migrate_lists ] || make_wanted
    begin_stop "$1"
    settle
    shift
    wait_for "$here" READER || failure "$scenario: the guest doesn't begin"
    for kind in "$@"; do
        hop "$kind"
        [ "$outcome" != failed ] || break
    done
    [ "$scenario" != migrate_lists ] || stay_awhile nowhere
    echo over > "$share/work/over"
    tells "$here" "$here_qemu" '== end' || say "$here" quit
    wait "$here_qemu" || failure "$scenario: qemu ended with $?"
    wait "$here_server" || failure "$scenario: the server ended with $?"
    check_journey
    ! grep -qE ' (failed|nudged) ' "$work/migrations" ||
        cp -r "$journey" "$work/kept-$(wc -l < "$work/migrations")" 2> "$work/none" || true
}

# How many migrations of each pair came out how, and the least, the median and the most of their
# times.
sum_up() {
    python3 - "$work/migrations" << 'END_OF_PYTHON'
import collections
import statistics
import sys

pairs = collections.defaultdict(lambda: (collections.Counter(), [], []))
for line in open(sys.argv[1]):
    source, target, outcome, *times = line.split()
    outcomes, *lists = pairs[source, target]
    outcomes[outcome] += 1
    for time, found in zip(times, lists):
        found += [int(time)] if outcome == "moved" and time != "-" else []
for (source, target), (outcomes, *lists) in pairs.items():
    told = ", ".join(f"{count} {outcome}" for outcome, count in outcomes.most_common())
    times = "; ".join(f"{what} {min(found)} {statistics.median(found):.0f} {max(found)} ms"
                      for what, found in zip(("in all", "standing still"), lists) if found)
    print(f"from {source} to {target}: {told}; {times}")
END_OF_PYTHON
}

# Access control lists and labels move, between all pairs.
lists() {
    local words=(--posix-acl --security-label --modcaps=+sys_admin)
    local kernel='security=selinux enforcing=0'
    travel migrate_lists ours virtiofsd ours ours
    travel migrate_lists virtiofsd ours virtiofsd
}

# MIGRATIONS of each pair, five of each with a guest.
migrate() {
    local round left=${MIGRATIONS:-3} count kinds words=() kernel=
    rm -rf "$work"/migrations "$work"/kept-*
    : > "$work/migrations"
    while [ "$left" -gt 0 ]; do
        count=$((left < 5 ? left : 5)) kinds=(ours)
        for round in $(seq "$count"); do kinds+=(ours virtiofsd ours); done
        travel migrate "${kinds[@]}"
        left=$((left - count))
        sum_up
    done
    travel migrate virtiofsd ours ours # files that were opened there, by the guest's own flags
    lists
    words=(--rlimit-nofile 1600)
    travel migrate_full ours ours
    echo "all descriptors are the guest's: $outcome"
}
