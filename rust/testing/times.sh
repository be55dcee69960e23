# The daemon and virtiofsd in turn: sourced by ./test. `times` has a guest read, write and look up;
# `rows` has a driver ask without a guest, and counts instructions.

# Says which server is to be tried in each of so many rounds, in turn.
turns() {
    local round
    for round in $(seq "$1"); do [ $((round % 2)) = 1 ] && echo ours virtiofsd ||
        echo virtiofsd ours; done
}

# The least and the median of each row of two files of `number<TAB>what`, and the first's median by
# the second's.
compare() {
    python3 - "$@" << 'END'
import statistics
import sys

rows = {}
for kind, path in enumerate(sys.argv[1:]):
    for line in open(path):
        number, what = line.rstrip("\n").split("\t")
        rows.setdefault(what, ([], []))[kind].append(float(number))
for what, both in rows.items():
    ratio = " " * 6
    if all(both) and statistics.median(both[1]):
        ratio = f"{statistics.median(both[0]) / statistics.median(both[1]):6.2f}"
    cells = [f"{min(found):11.1f} {statistics.median(found):11.1f}" if found else " " * 23
        for found in both]
    print(*cells, ratio, what, sep="  ")
END
}

# 10,000 files in a directory, and 2,000 in an archive.
make_many() {
    local k
    [ ! -f "$share/tar" ] || return 0
    mkdir -p "$share/ten-thousand" "$work/tar"
    for k in $(seq 10000); do : > "$share/ten-thousand/name-$k"; done
    for k in $(seq 2000); do
        mkdir -p "$work/tar/$((k % 40))"
        head -c $((k * 37 % 9000)) /dev/urandom > "$work/tar/$((k % 40))/$k"
    done
    tar -C "$work/tar" -cf "$work/tar.made" .
    mv "$work/tar.made" "$share/tar"
}

# In a guest under QEMU: the scenario `times`.
times() {
    local kind unit
    make_many
    rm -f "$work"/times.*
    for kind in $(turns "${ROUNDS:-5}"); do
        make_files
        cat "$share"/files/{big,m1} > "$work/warm" # neither waits for the host's disk
        run_guest times "$kind" "times-$kind"
        for unit in ms interrupts; do
            sed -n "s/^TIME \([0-9.]*\) $unit: \(.*\)/\1\t\2/p" \
                "$run/lines" >> "$work/times.$unit.$kind"
        done
    done
    echo "in the guest, least and median of ${ROUNDS:-5} in turn: ours, virtiofsd," \
        "ratio of medians (below 1: ours is faster)"
    echo "milliseconds:"
    compare "$work"/times.ms.{ours,virtiofsd}
    echo "interrupts:"
    compare "$work"/times.interrupts.{ours,virtiofsd}
}

# virtiofsd for a driver that names more queues than virtiofsd has an option for.
make_virtiofsd() {
    cat > "$work/virtiofsd" << END
#!/usr/bin/env bash
words=()
while [ \$# -gt 0 ]; do
    case \$1 in
    --num-request-queues) shift 2 ;;
    *) words+=("\$1") && shift ;;
    esac
done
root=$root
$(declare -f other)
other /usr/libexec/virtiofsd "\${words[@]}"
END
    chmod +x "$work/virtiofsd"
}

# Without a guest: rows.c, by rows.py. What is measured is what is shipped: the proved archive, if
# there is one (`build` links it), and a daemon that is linked as a whole.
rows() {
    make_rows
    make_virtiofsd
    printf '#!/usr/bin/env bash\nexec %q "$@" --poll-max-us 0\n' "$DAEMON" > "$work/sleeping"
    chmod +x "$work/sleeping"
    python3 "$here/testing/rows.py" "$work" "$DAEMON" "$work/virtiofsd" || failure "rows"
}

instructions() {
    make_rows
    python3 "$here/testing/rows.py" --instructions "$work" || failure "instructions"
}

make_rows() {
    take_virtiofsd
    make_counted ours
    make_counted virtiofsd
    compile rows rows.c front.c
    rm -rf "$work/rows-share" "$work"/share-*
}

# Without a guest: load.c, by paths, and by file handles.
loads() {
    local kind daemon count options priority=()
    take_virtiofsd
    make_virtiofsd
    compile load load.c front.c
    rm -rf "$work/load-share" "$work"/loads.*
    mkdir -p "$work/load-share"
    ! chrt -f 5 true 2> "$work/none" || priority=(chrt -f 5)
    for kind in $(turns "${ROUNDS:-5}"); do
        [ "$kind" = ours ] && daemon=$DAEMON || daemon=$work/virtiofsd
        for count in 15000 60000; do
            [ $count = 15000 ] && options=() ||
                options=(--inode-file-handles=mandatory --migration-mode=file-handles)
            "${priority[@]}" "$work/load" "$daemon" "$work/load-share" $count "${options[@]}" \
                >> "$work/loads.$kind" 2> "$work/loads.errors" ||
                failure "loads of $kind: $(tail -n 3 "$work/loads.errors")"
        done
    done
    echo "milliseconds, least and median of ${ROUNDS:-5} in turn: ours, virtiofsd, ratio of medians"
    compare "$work"/loads.{ours,virtiofsd}
}

# A daemon of a kind whose user instructions valgrind counts, to the file COUNTED. Threads that look
# for requests would count for what they look.
make_counted() {
    local kind=$1 program=("$DAEMON")
    [ "$kind" = ours ] || program=("$root/usr/lib64/ld-linux-x86-64.so.2" --library-path
        "$root/usr/lib/x86_64-linux-gnu" "$root/usr/libexec/virtiofsd")
    cat > "$work/counted-$kind" << END
#!/usr/bin/env bash
words=(--sandbox none --seccomp none)
[ $kind = virtiofsd ] || words+=(--poll-max-us 0)
while [ \$# -gt 0 ]; do
    case $kind-\$1 in
    virtiofsd---num-request-queues) shift 2 ;;
    *) words+=("\$1") && shift ;;
    esac
done
exec valgrind -q --tool=callgrind --callgrind-out-file="\$COUNTED" ${program[*]@Q} "\${words[@]}"
END
    chmod +x "$work/counted-$kind"
}

# git, and an archive of a repository with FILES files, 50 a directory: the guest's disk.
make_feel_disk() {
    local disk=$work/feel-disk tree=$work/feel-tree files=${FILES:-2000} packages k
    [ ! -f "$work/feel.disk" ] || return 0
    make_apt
    theirs apt-get update > "$work/apt" 2>&1
    packages=$(needed . base-files bash coreutils libc-bin git)
    rm -rf "$disk" "$tree"
    # shellcheck disable=SC2086
    unpack suites "$disk" base-files $packages >> "$work/apt" 2>&1
    rm -rf "$disk"/usr/share/{doc,man,locale,info}
    mkdir -p "$disk"/{dev,proc,m,root} "$tree"
    python3 - "$tree" "$files" << 'END'
import os, random, sys

chance = random.Random(1)
for k in range(int(sys.argv[2])):
    at = os.path.join(sys.argv[1], f"d{k // 1000}", f"d{k // 50 % 20}")
    os.makedirs(at, exist_ok=True)
    with open(os.path.join(at, f"file-{k}.c"), "w") as file:
        file.write(f"{chance.random()}\n" * chance.randrange(100))
END
    git -C "$tree" init -q
    git -C "$tree" add .
    git -C "$tree" -c gc.auto=0 -c user.name=a -c user.email=a@a commit -q -m files
    git -C "$tree" repack -adq
    git -C "$tree" prune-packed -q
    tar -C "$tree" --owner=0 --group=0 -cf "$disk/archive" .
    rm -rf "$tree"
    mke2fs -q -t ext4 -d "$disk" "$work/feel.making" 1G
    rm -r "$disk"
    mv "$work/feel.making" "$work/feel.disk"
}

# What a user feels, in one guest with a device for each daemon: the scenario `feel`. FEEL names
# them: ours or virtiofsd, its threads, its queues (virtiofsd has one). The directories are in
# memory. For a quiet run: chrt -f 10 rust/test feel.
feel() {
    local kind threads queues tag name device words=() tags=() servers=() pids=() options k
    make_feel_disk
    run=$work/run-feel
    rm -rf "$run"
    mkdir -p "$run" "$work/feel"
    ! mountpoint -q "$work/feel" || umount "$work/feel"
    mount -t tmpfs feel "$work/feel"
    for device in ${FEEL:-ours,1,1 virtiofsd,1,1 ours,4,1 virtiofsd,4,1 ours,1,4}; do
        IFS=, read -r kind threads queues <<< "$device"
        tag=$kind-$threads-$queues
        mkdir -p "$work/feel/$tag"
        head -c 67108864 /dev/urandom > "$work/feel/$tag/big"
        options=()
        [ "$queues" = 1 ] || options+=(--num-request-queues "$queues")
        # With a pool of 0 a thread of its own serves each queue of virtiofsd's.
        [ "$kind" != virtiofsd ] || options+=(--thread-pool-size $((threads > 1 ? threads : 0)))
        share=$work/feel/$tag THREADS=$threads start_server "$kind" "$run/$tag" "$run/$tag.log" \
            "${options[@]}" || return 0
        # QEMU has a socket of the name `fs` in any case.
        name=fs
        [ ${#tags[@]} = 0 ] || name=$tag words+=(-chardev "socket,id=$tag,path=$run/$tag")
        words+=(-device
            "vhost-user-fs-pci,chardev=$name,tag=$tag,queue-size=128,num-request-queues=$queues")
        servers+=("$server") tags+=("$tag") pids+=("$tag=$server")
    done
    python3 "$here/testing/feel_processor.py" "$run/console" "${pids[@]}" > "$run/processor" &
    local follows=$!
    MEMORY=1536M DISK=$work/feel.disk qemu "$run" \
        "feel rounds=${ROUNDS:-5} tags=$(IFS=, && echo "${tags[*]}")" \
        "$run/${tags[0]}" -m 1536M -no-reboot "${words[@]}" ||
        failure "feel: qemu ended with $?: $(tail -n 2 "$run/qemu")"
    for k in "${!servers[@]}"; do
        wait "${servers[k]}" || failure "feel: ${tags[k]} ended with $?"
    done
    kill "$follows" 2> "$work/none" || true
    umount "$work/feel"
    tr -d '\r' < "$run/console" | sed -n '/^== begin/,$p' > "$run/lines"
    ! grep '^FAILED' "$run/lines" || failure "feel: a row fails"
    grep -q '^== end' "$run/lines" || failure "feel: the guest didn't come to its end"
    cat "$run/processor" >> "$run/lines"
    feel_table "$run/lines"
}

# The median and the least of each row, for each daemon.
feel_table() {
    python3 - "$1" << 'END'
import collections, re, statistics, sys

for unit in ("ms", "processor", "interrupts"):
    rows, tags = collections.defaultdict(lambda: collections.defaultdict(list)), []
    for line in open(sys.argv[1]):
        if found := re.match(rf"TIME ([0-9.]+) {unit}: (\S+) (.*)", line):
            rows[found[3]][found[2]].append(float(found[1]))
            if found[2] not in tags:
                tags.append(found[2])
    unit = {"processor": "milliseconds of the daemon's processors"}.get(unit, unit)
    print(f"{unit}, median and least: {', '.join(sorted(tags))}")
    for row, cells in rows.items():
        print(*(f"{statistics.median(cells[tag]):9.1f} {min(cells[tag]):9.1f}"
            for tag in sorted(tags)), row, sep="  ")
END
}
