# The part of ./test that replaces daemons under a driver, without a guest: sourced by it.

# A part of `replaced`, over a new directory. OPTIONS and NODES of the environment are for it.
try_replaced() {
    local status=0
    make_yard replaced
    timeout 600 "$work/replaced" "$DAEMON" "$work/yard/share" "$@" \
        > "$work/replaced-$1" 2> "$work/replaced-$1.errors" || status=$?
    sed "s/^/replaced $*: /" "$work/replaced-$1"
    [ $status = 0 ] ||
        failure "replaced $*: it ended with $status: $(tail -n 3 "$work/replaced-$1.errors")"
    ! grep -a panicked "$work/replaced-$1.errors" || failure "replaced $*: a panic"
    snapshot | cmp - "$work/yard.before" ||
        failure "replaced $*: a file outside the directory changed"
}

handles='--migration-mode=file-handles --modcaps=+dac_read_search'

compile_replaced() {
    compile replaced replaced.c replaced_parts.c between.c stream.c iommu.c front.c
}

# A few minutes: all refusals and failures, and some replacements.
replace_some() {
    compile_replaced
    try_replaced refusals
    try_replaced held
    try_gone
    try_replaced liars 2
    try_replaced race 5
    try_replaced kills 20
    try_replaced logged
    IOMMU=1 try_replaced logged
    try_replaced between 5
    THREADS=4 try_replaced given-up 50
    IOMMU=1 THREADS=2 try_replaced times 5
    THREADS=4 try_replaced times 10
}

# At least so many new daemons are killed at any moment. A run ends when one is that serves already.
try_kills() {
    local killed=0
    while [ $killed -lt "$1" ]; do
        try_replaced kills "$1"
        killed=$((killed + $(sed -n 's/^\([0-9]*\) killed.*/\1/p' "$work/replaced-kills") + 0))
    done
}

# A removed file that the guest holds.
try_gone() {
    try_replaced gone
    OPTIONS=$handles try_replaced gone
    OPTIONS=--inode-file-handles=mandatory try_replaced gone
    OPTIONS='--inode-file-handles=mandatory --migration-mode=file-handles' try_replaced gone
}

replace_all() {
    local count=${REPLACEMENTS:-100}
    replace_some
    try_replaced between
    try_replaced race 50
    THREADS=4 try_kills 100
    EVENT_INDEX=1 THREADS=4 try_replaced times "$count"
    OPTIONS=$handles THREADS=4 try_replaced times "$count"
    OPTIONS=$handles EVENT_INDEX=1 try_replaced times "$count"
    OPTIONS=--inode-file-handles=mandatory THREADS=4 try_replaced times "$count"
    IOMMU=1 THREADS=4 try_replaced times "$count"
    IOMMU=1 THREADS=4 try_kills 50
    OPTIONS=--sandbox=chroot try_replaced times "$count"
    OPTIONS='--sandbox=none --seccomp=none' try_replaced times "$count"
    NODES=1000 THREADS=4 try_replaced times "$count"
    NODES=15000 THREADS=4 try_replaced times "$count"
}

# Starts a daemon that takes over by a control socket, with options more, and waits until it serves
# in place of `server`, or is refused.
replace_server() {
    local control=$1 log=$2 new ended
    shift 2
    "$DAEMON" --take-over="$control" --shared-dir="$share" --xattr \
        --thread-pool-size="${THREADS:-0}" "$@" >> "$log" 2>&1 &
    new=$!
    wait -n -p ended "$server" "$new" || true
    if [ "$ended" = "$server" ]; then
        server=$new
        replaced=$((replaced + 1))
    else
        refused=$((refused + 1))
    fi
}

# The least, the median and the most of the pauses that logs have, in milliseconds.
pauses() {
    sed -n 's/.* \([0-9.]*\) ms of pause/\1/p' "$@" | sort -n |
        awk '{v[NR] = $1} END {print v[1], v[int((NR + 1) / 2)], v[NR]}'
}

# The end of a guest whose daemons were replaced: at most a tenth of them may be refused.
check_replaced() {
    local name=$1 vm=$2
    wait "$vm" || failure "$name: qemu ended with $?: $(tail -n 2 "$run/qemu")"
    wait "$server" || failure "$name: the last server ended with $?"
    tr -d '\r' < "$run/console" | sed -n '/^== begin/,$p' > "$run/lines"
    ! grep WRONG "$run/lines" || failure "$name: the guest sees something wrong"
    ! grep -a panicked "$run/server" || failure "$name: a panic"
    grep -q '^== end' "$run/lines" || failure "$name: the guest didn't come to its end"
    ! sed -n '/^== kernel/,/^== end/p' "$run/lines" |
        grep -v -e '^==' -e '8254 timer' -e clocksource -e 'stall warnings suppressed' ||
        failure "$name: the guest's kernel complains"
    [ $((10 * refused)) -le $((replaced + refused)) ] || failure "$name: $refused were refused"
}

# A guest whose daemon is replaced so many times while it works. A daemon that is refused is tried
# again, and counted.
replace_in_guest() {
    local name=$1 scenario=$2 count=$3 replaced=0 refused=0
    shift 3
    make_files
    run=$work/run-$name
    rm -rf "$run"
    mkdir -p "$run"
    start_server ours "$run/socket" "$run/server" --control-socket="$run/control" "$@" || return 0
    qemu "$run" "$scenario" "$run/socket" -m "${MEMORY:-256M}" -device "$(device)" -no-reboot &
    local vm=$!
    wait_for "$run" READY || {
        failure "$name: the guest isn't ready: $(tail -n 2 "$run/qemu")"
        return 0
    }
    for _ in $(seq "$count"); do
        sleep "0.$((RANDOM % 4 + 1))"
        replace_server "$run/control" "$run/server" "$@"
    done
    touch "$share/work/stop"
    check_replaced "$name" "$vm"
    echo "$name: $replaced replaced, $refused refused, $(grep ROUNDS "$run/lines"), pauses in ms:" \
        "$(pauses "$run/server")"
}

# A suite that others wrote, which notices a wrong byte, while the daemon is replaced every second.
# Each of its tests must pass.
replace_under_suite() {
    local suite=$1 name=replaced-$1 replaced=0 refused=0 words="suites=$1 fio=${FIO_SIZE:-6M}"
    shift
    make_files
    run=$work/run-$name
    rm -rf "$run"
    mkdir -p "$run"
    start_server ours "$run/socket" "$run/server" --control-socket="$run/control" "$@" || return 0
    GUEST_SECONDS=${GUEST_SECONDS:-3600} DISK=$work/suites.disk MEMORY=1536M qemu "$run" \
        "suite $words" \
        "$run/socket" -m 1536M -device "$(device)" -no-reboot &
    local vm=$!
    until grep -aq '^RESULT' "$run/console" 2> "$work/none" || ! kill -0 $vm 2> "$work/none"; do
        sleep 1
    done
    until grep -aq '^== kernel' "$run/console" || ! kill -0 $vm 2> "$work/none"; do
        sleep "0.$((RANDOM % 9 + 1))"
        replace_server "$run/control" "$run/server" "$@"
    done
    check_replaced "$name" "$vm"
    grep '^RESULT' "$run/lines" > "$run/results" || true
    ! grep -E ': [1-9][0-9]*$' "$run/results" | grep -v -e ' files: ' ||
        failure "$name: a test fails"
    echo "$name: $replaced replaced, $refused refused, $(wc -l < "$run/results") results," \
        "pauses in ms: $(pauses "$run/server")"
}

# A guest that migrates so many times, each time from a daemon that has just replaced another. By
# file handles, since it always holds files that it has just removed.
replace_and_migrate() {
    local here=$here kinds=(ours) words kernel='' REPLACES=1 replaced=0 refused=0
    read -ra words <<< "$handles"
    for _ in $(seq "$1"); do kinds+=(ours); done
    rm -rf "$work"/migrations "$work"/kept-*
    : > "$work/migrations"
    travel migrate "${kinds[@]}"
    sum_up
    [ $((10 * refused)) -le "$1" ] || failure "migrated: $refused were refused"
    echo "migrated: $replaced replaced, $refused refused, pauses in ms:" \
        "$(pauses "$journey"/*/server)"
}

replace_in_guests() {
    local count=${REPLACEMENTS:-50}
    THREADS=4 replace_in_guest replaced replaced "$count"
    # shellcheck disable=SC2086
    replace_in_guest replaced-kept kept_replaced "$count" $handles
    QUEUES=3 THREADS=2 replace_in_guest replaced-queues replaced "$count" --num-request-queues 3
    IOMMU=strict THREADS=2 replace_in_guest replaced-iommu replaced "$count"
    THREADS=2 replace_and_migrate "$count"
    take_suites
    THREADS=2 replace_under_suite fio
    replace_under_suite git
}
