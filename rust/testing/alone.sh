# The part of ./test that needs no guest: sourced by it. Drivers and front-ends are programs of this
# folder.

# A directory to serve, with links that lead out of it, beside a file that nobody may reach.
make_yard() {
    local yard=$work/yard dir=$work/yard/share
    ! mountpoint -q "$dir" || umount "$dir"
    rm -rf "$yard"
    mkdir -p "$dir"
    # Who asks for anything, as for room that no limit bounds, fills no disk.
    case $1 in wild | guest) mount -t tmpfs -o size=64m,nr_inodes=8k "$1" "$dir" ;; esac
    mkdir "$dir/dir" "$dir/race"
    echo secret > "$yard/secret"
    echo file > "$dir/file"
    echo slow > "$dir/slow"
    head -c 30000 /dev/urandom > "$dir/other"
    ln -s ../secret "$dir/out"
    ln -s "$yard/secret" "$dir/absolute"
    ln -s .. "$dir/up"
    ln -s .. "$dir/race-link"
    mkfifo "$dir/pipe"
    mkdir -m 0770 "$dir/shared"
    chgrp 4242 "$dir/shared"
    snapshot > "$work/yard.before"
}

# All that stands beside the directory.
snapshot() {
    find "$work/yard" -path "$work/yard/share" -prune -o -type f -printf '%P %m %s %T@ %U %G ' \
        -exec cat {} \;
}

# Runs a program of the tests over the daemon; what it prints is shown. THREADS of the environment
# is the daemon's --thread-pool-size; with EVENT_INDEX=1 the driver takes VIRTIO_F_EVENT_IDX. Where
# answers have to come within milliseconds, both have real-time priority, if that is allowed.
try() {
    local program=$1 what=$2 status=0 priority=()
    make_yard "$what"
    case $what in held | looks) ! chrt -f 1 true 2> "$work/none" || priority=(chrt -f 1) ;; esac
    (
        ulimit -f 65536
        exec "${priority[@]}" timeout $((SECONDS_EACH + 600)) \
            "$work/$program" "$DAEMON" "$work/yard/share" "${@:2}"
    ) > "$work/$program-$what" 2> "$work/$program-$what.errors" || status=$?
    cat "$work/$program-$what"
    ! grep -a -E 'FAILED|panicked' "$work/$program-$what.errors" || failure "$program $what"
    [ $status = 0 ] ||
        failure "$program $what: it ended with $status: $(tail -n 3 "$work/$program-$what.errors")"
    snapshot | cmp - "$work/yard.before" ||
        failure "$program $what: a file outside the directory changed"
    ! mountpoint -q "$work/yard/share" || umount "$work/yard/share"
    echo "$program $what: done"
}

# A program of this folder, with numbers by chance as the C example's tests have them.
compile() {
    local name=$1 by_chance=$here/../examples/c/tests
    shift
    gcc -std=c11 -pthread -O2 -Wall -Wextra -Werror -I"$by_chance" -o "$work/$name" \
        "${@/#/$here/testing/}" "$by_chance/chance.c"
}

# The unit file, if there is a systemd: it has no fault, and is exposed little.
check_unit() {
    local unit=pitskhomu-virtiofsd@.service folder=$work/unit.d
    [ -n "$(type -P systemd-analyze)" ] || return 0
    mkdir -p "$folder"
    sed "s,/usr/local/bin/pitskhomu-virtiofsd,$DAEMON," "$here/pitskhomu-virtiofsd/$unit" \
        > "$folder/$unit"
    systemd-analyze verify --man=no "$folder/$unit" || failure "unit: it has a fault"
    systemd-analyze security --no-pager --offline=true --threshold=50 "$folder/$unit" \
        > "$work/exposure" || failure "unit: $(tail -n 1 "$work/exposure")"
    tail -n 1 "$work/exposure"
}

alone() {
    local threads
    check_unit
    SECONDS_EACH=${SECONDS_EACH:-60}
    compile checks checks.c escape.c held.c labels.c looks.c platform.c slots.c stopped.c wild.c \
        front.c
    compile hostile hostile.c front.c
    compile log log.c front.c
    compile state state.c moved.c front.c
    rm -rf "$work/starts"
    mkdir -p "$work/starts"
    timeout 300 python3 "$here/testing/starts.py" "$DAEMON" "$work/starts" || failure "starts"
    timeout 300 python3 "$here/testing/options.py" "$DAEMON" || failure "options"
    try checks escape
    try checks groups
    try checks labels
    try checks lists
    try checks wild "$SECONDS_EACH"
    try checks readonly
    diff <(echo file) "$work/yard/share/file" || failure "readonly: a file changed"
    try checks log
    try checks rings
    try checks config
    try checks platform
    try checks memory "${CHANGES:-500}"
    try checks slots
    try checks two 5
    try checks slow
    try checks leave
    grep -q 'the end of the daemon no longer waits' "$work/checks-leave.errors" ||
        failure "leave: the log doesn't say what was in flight"
    THREADS=4 try checks pool
    for threads in 0 4; do
        THREADS=$threads try checks held 20
        grep -q 'queue 1: GET_VRING_BASE is answered, and the host holds request .*opcode 14' \
            "$work/checks-held.errors" ||
            failure "held: the log doesn't say what the host holds"
        grep -q "can't move now, .* holds a call of its: queue 1: request .* opcode 14" \
            "$work/checks-held.errors" ||
            failure "held: the log doesn't say why no state is saved"
        grep -q 'no state can be loaded now, .* queue 1: request .* opcode 14' \
            "$work/checks-held.errors" ||
            failure "held: the log doesn't say why no state is loaded"
    done
    THREADS=4 try checks two 5
    try checks sleeps "${SLEEPS:-500000}"
    THREADS=4 try checks sleeps "${SLEEPS:-500000}"
    EVENT_INDEX=1 try checks sleeps "${SLEEPS:-500000}"
    THREADS=4 EVENT_INDEX=1 try checks sleeps "${SLEEPS:-500000}"
    try checks pauses "${PAUSES:-2000}"
    THREADS=4 EVENT_INDEX=1 try checks pauses "${PAUSES:-2000}"
    THREADS=31 EVENT_INDEX=1 try checks pauses "${PAUSES:-2000}"
    try checks looks "$SECONDS_EACH"
    THREADS=4 try checks looks 5
    THREADS=31 EVENT_INDEX=1 try checks looks 5
    EVENT_INDEX=1 try checks rings
    THREADS=4 EVENT_INDEX=1 try checks pool
    try hostile guest "$SECONDS_EACH"
    THREADS=4 EVENT_INDEX=1 try hostile guest "$SECONDS_EACH"
    try hostile front-end "$SECONDS_EACH"
    try hostile cut 1
    grep -q 'lent is gone (SIGBUS)' "$work/hostile-cut.errors" ||
        failure "cut: the daemon doesn't say why it ended"
    try log broken 1500
    [ "$(grep -c 'queue 1 is refused' "$work/log-broken.errors")" = 21 ] ||
        failure "log: broken rings have another number of lines"
    grep -q '1480 more such lines' "$work/log-broken.errors" ||
        failure "log: the number of lines left out isn't there"
    try log unread 1500
    try state "$SECONDS_EACH"
    try state full
    try state cut
    try state turned
    try state idle
    try state flags
    try state writeback
    try state lost
    grep -q refused "$work/state-lost" || failure "lost: a file that no path leads to is taken"
}

# What an operator does.
operate() {
    take_virtiofsd
    make_other
    timeout 600 python3 "$here/pitskhomu-virtiofsd/tests/operate" "$DAEMON" \
        "$work/other" /usr/libexec/virtiofsd || failure "operate"
}
