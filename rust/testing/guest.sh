# A Linux guest under QEMU: sourced by ./test. Its first files and scenarios stand in testing/guest.

# QEMU, virtiofsd, busybox and a kernel, unpacked.
take_guest() {
    local name
    [ -x "$root/usr/bin/checkpolicy" ] || {
        local packages kernel
        make_apt
        theirs apt-get update > "$work/apt" 2>&1
        packages=$(needed . qemu-system-x86 virtiofsd busybox-static acl attr checkpolicy)
        kernel=$(theirs apt-cache depends linux-image-cloud-amd64 | sed -n 's/^ *Depends: //p' |
            head -n 1)
        # shellcheck disable=SC2086
        unpack guest "$root" $packages "$kernel" >> "$work/apt" 2>&1
        cp "$root"/boot/vmlinuz-* "$work/vmlinuz"
    }
    make_image
    make_files
    take_accelerator
}

# ACCEL=auto is KVM if a guest's kernel comes up with it within 20 seconds, else TCG: a machine in a
# cloud may have a /dev/kvm on which no kernel starts.
take_accelerator() {
    [ "${ACCEL:-auto}" = auto ] || return 0
    ACCEL=tcg
    if [ -w /dev/kvm ]; then
        rm -f "$work/probe"
        (timeout 20 bash -c "$(declare -f other); other \"\$@\"" qemu /usr/bin/qemu-system-x86_64 \
            -L "$root/usr/share/qemu" -L "$root/usr/share/seabios" -M pc,accel=kvm -cpu max \
            -m 256M -nodefaults -no-user-config -nic none -display none -no-reboot \
            -serial "file:$work/probe" -kernel "$work/vmlinuz" \
            -append 'console=ttyS0 panic=-1') > "$work/probe.qemu" 2>&1 || true
        # Without a root the kernel panics, and so it came up.
        ! grep -q 'Kernel panic' "$work/probe" 2> "$work/none" || ACCEL=kvm
    fi
    export ACCEL
    echo "the guests' accelerator: $ACCEL"
}

# virtiofsd alone.
take_virtiofsd() {
    [ ! -x "$root/usr/libexec/virtiofsd" ] || return 0
    make_apt
    theirs apt-get update > "$work/apt" 2>&1
    # shellcheck disable=SC2046
    unpack virtiofsd "$root" $(needed . virtiofsd) >> "$work/apt" 2>&1
}

# Runs a program of the other Debian with its own libraries.
other() {
    local program=$1
    shift
    QEMU_MODULE_DIR=$root/usr/lib/x86_64-linux-gnu/qemu exec \
        "$root/usr/lib64/ld-linux-x86-64.so.2" \
        --library-path "$root/usr/lib/x86_64-linux-gnu:$root/usr/lib/x86_64-linux-gnu/pulseaudio" \
        "$root$program" "$@"
}

# A module of the guest's kernel, behind those that it depends on.
take_module() {
    local file name
    ! grep -qx "$1" "$work/root/mod/order" || return 0
    file=$(find "$root" -path "*/lib/modules/*" -name "$1.ko*" -print -quit)
    [ -n "$file" ] || return 0 # it is a part of the kernel itself
    case $file in
    *.xz) "$busybox" xz -dc "$file" > "$work/root/mod/$1.ko" ;;
    *) cp "$file" "$work/root/mod/$1.ko" ;;
    esac
    for name in $(tr '\0' '\n' < "$work/root/mod/$1.ko" | sed -n 's/^depends=//p' |
        tr ',' ' '); do take_module "$name"; done
    echo "$1" >> "$work/root/mod/order"
}

# The guest's first files: busybox, the modules, what it runs.
make_image() {
    local name
    rm -rf "$work/root"
    mkdir -p "$work"/root/{bin,dev,proc,sys,mnt,mod,tmp}
    : > "$work/root/mod/order"
    cp "$busybox" "$work/root/bin/busybox"
    gcc -std=c11 -O2 -static -pthread -o "$work/root/bin/ask" "$here"/testing/guest/{ask,calls}.c
    gcc -std=c11 -O2 -static -o "$work/root/bin/hold" "$here/testing/guest/hold.c"
    gcc -std=c11 -O2 -static -o "$work/root/bin/flags" "$here/testing/guest/flags.c"
    cp "$here"/testing/guest/{init,scenarios.sh,lists.sh,suites} "$work/root/"
    make_lists_tools
    chmod 755 "$work/root/init"
    for name in virtio_pci virtio-iommu virtiofs virtio_blk ext4; do take_module $name; done
    (cd "$work/root" && find . | "$busybox" cpio -o -H newc 2> "$work/none" |
        gzip -1) > "$work/image"
}

# What a guest needs for access control lists and labels: the tools, with their libraries, and a
# policy for SELinux.
make_lists_tools() {
    local libraries=$work/root/lib/x86_64-linux-gnu
    mkdir -p "$work"/root/{etc,lib64} "$libraries"
    cp "$root"/usr/bin/{get,set}{facl,fattr} "$work/root/bin/"
    cp -L "$root"/usr/lib/x86_64-linux-gnu/{libacl.so.1,libattr.so.1,libc.so.6} "$libraries/"
    cp -L "$root/usr/lib64/ld-linux-x86-64.so.2" "$work/root/lib64/"
    (other /usr/bin/checkpolicy -U allow -c 33 -o "$work/root/policy" \
        "$here/testing/guest/policy.conf")
}

# What is shared: files by chance, one of 64 MiB, a directory of 300, one within another, and links.
make_files() {
    local files=$share/files k largest=${LARGEST:-67108864}
    mkdir -p "$share"
    rm -rf "$share/work"
    mkdir "$share/work"
    [ ! -f "$work/files-made" ] || return 0
    mkdir -p "$files/many" "$files/one/two/three"
    echo 'Good morning from the host!' > "$files/greeting"
    : > "$files/empty"
    head -c $((largest / 64 + 13)) /dev/urandom > "$files/m1"
    head -c $((largest / 8)) /dev/urandom > "$files/m8"
    head -c "$largest" /dev/urandom > "$files/big"
    for k in $(seq 1 40); do head -c $((RANDOM % 9000)) /dev/urandom > "$files/one/two/$k"; done
    for k in $(seq 1 300); do echo "$k" > "$files/many/name-$k"; done
    ln -s greeting "$files/link"
    ln -s ../../../../../etc/hostname "$files/one/out"
    touch "$work/files-made"
}

# Starts a daemon on a socket: `ours`, with THREADS for each queue, or `virtiofsd`. Sets `server`.
start_server() {
    local kind=$1 socket=$2 log=$3
    shift 3
    rm -f "$socket"
    case $kind in
    ours) "$DAEMON" --socket-path="$socket" --shared-dir="$share" --xattr \
        --thread-pool-size="${THREADS:-0}" "$@" > "$log" 2>&1 & ;;
    virtiofsd)
        # Its sandbox runs newuidmap only for who isn't root.
        (other /usr/libexec/virtiofsd --socket-path="$socket" --shared-dir="$share" \
            --xattr "$@") > "$log" 2>&1 &
        ;;
    esac
    server=$!
    for _ in $(seq 100); do
        [ ! -S "$socket" ] || return 0
        sleep 0.1
    done
    failure "$kind makes no socket: $(tail -n 3 "$log")"
    return 1
}

# QEMU's words for the guest's IOMMU, as IOMMU of the environment has it, and then those of its
# kernel: `strict`, or `lazy`, is Intel's, and Linux unmaps at once, or many at a time; `virtio` is
# virtio-iommu; else there is none.
iommu_of_machine() {
    case ${IOMMU:-none} in
    strict | lazy) echo -M q35,kernel-irqchip=split -device \
        intel-iommu,device-iotlb=on,intremap=off ;;
    virtio) echo -M q35 -device virtio-iommu-pci,granule=4k ;;
    none) echo -M pc ;;
    esac
}
iommu_of_kernel() {
    case ${IOMMU:-none} in
    strict) echo intel_iommu=on iommu.passthrough=0 iommu.strict=1 ;;
    lazy) echo intel_iommu=on iommu.passthrough=0 iommu.strict=0 ;;
    virtio) echo iommu.passthrough=0 iommu.strict=1 ;;
    esac
}

# QEMU with a guest over a socket, in a run's folder; its monitor is on a pipe. What follows is
# added to its words. MEMORY is how much it has, and DISK a disk of its own, which stays as it is.
qemu() {
    local run=$1 scenario=$2 socket=$3 disk=()
    shift 3
    [ -z "${DISK:-}" ] || disk=(-drive "file=$DISK,format=raw,if=virtio,snapshot=on")
    rm -f "$run"/monitor.{in,out}
    mkfifo "$run/monitor.in" "$run/monitor.out"
    (timeout "${GUEST_SECONDS:-900}" bash -c "$(declare -f other); other \"\$@\"" qemu \
        /usr/bin/qemu-system-x86_64 \
        -L "$root/usr/share/qemu" -L "$root/usr/share/seabios" \
        $(iommu_of_machine) -M "accel=${ACCEL:-tcg},memory-backend=mem" -cpu max \
        -smp "${PROCESSORS:-2}" \
        -object "memory-backend-memfd,id=mem,size=${MEMORY:-256M},share=on" -nodefaults \
        -no-user-config -nic none -display none \
        -serial "file:$run/console" -chardev "pipe,id=mon,path=$run/monitor" \
        -mon chardev=mon,mode=readline \
        -chardev "socket,id=fs,path=$socket" -kernel "$work/vmlinuz" -initrd "$work/image" \
        -append "console=ttyS0 quiet loglevel=3 panic=-1 no_timer_check nowatchdog \
rcupdate.rcu_cpu_stall_suppress=1 $(iommu_of_kernel) \
rdinit=/init scenario=$scenario" "${disk[@]}" "$@") > "$run/qemu" 2>&1
}
busybox=$root/usr/bin/busybox
export root

# PLATFORM=on: the guest's device accesses memory as the platform says, as each device of a
# confidential guest does, and each behind an IOMMU.
device() {
    local properties=chardev=fs,tag=shared,queue-size=128 platform=${PLATFORM:-off}
    case ${IOMMU:-none} in
    strict | lazy) platform=on,ats=on ;;
    virtio) platform=on ;;
    esac
    properties+=,num-request-queues=${QUEUES:-1},iommu_platform=$platform
    echo "vhost-user-fs-pci,$properties"
}

# Waits for a line of the guest's.
wait_for() {
    for _ in $(seq $((4 * ${GUEST_SECONDS:-900}))); do
        ! grep -q "$2" "$1/console" 2> "$work/none" || return 0
        sleep 0.25
    done
    return 1
}

say() {
    local run=$1
    shift
    timeout 10 bash -c 'printf "%s\n" "$@" > "$0"' "$run/monitor.in" "$@" || true
}

# How many kilobytes of the guest's memory the daemon has mapped: it runs as a child of its own.
lent() {
    local daemon range sum=0
    daemon=$(pgrep -P "$server" | head -n 1)
    for range in $(sed -n '/memory-backend-memfd/s/ .*//p' "/proc/${daemon:-$server}/maps"); do
        sum=$((sum + 0x${range#*-} - 0x${range%-*}))
    done
    echo $((sum / 1024))
}

# The monitor's commands of a scenario, once the guest is ready.
meddle() {
    local run=$1 scenario=$2 holder k
    case $scenario in
    pause)
        wait_for "$run" READY || return
        for _ in $(seq 12); do
            say "$run" stop
            sleep 0.2
            say "$run" cont
            sleep 0.5
        done
        ;;
    hotplug | descriptors)
        wait_for "$run" READY || return
        say "$run" 'object_add memory-backend-memfd,id=m1,size=256M,share=on' \
            'device_add pc-dimm,id=d1,memdev=m1'
        wait_for "$run" ENOUGH || return
        lent > "$run/lent"
        say "$run" 'device_del d1'
        wait_for "$run" 'PLUGGED out' || return
        for _ in $(seq 50); do
            lent > "$run/lent-then"
            # QEMU takes it back after the guest gave it up.
            [ "$(cat "$run/lent-then")" = "$(cat "$run/lent")" ] || break
            sleep 0.2
        done
        cat "$run/lent-then" >> "$run/lent"
        ;;
    slow)
        echo slow > "$share/work/slow"
        python3 -c 'import fcntl, signal, sys, time
signal.signal(signal.SIGIO, signal.SIG_IGN)
with open(sys.argv[1], "r+") as file:
    fcntl.fcntl(file, fcntl.F_SETLEASE, fcntl.F_WRLCK)
    time.sleep(300)' "$share/work/slow" &
        holder=$!
        wait_for "$run" READY || return
        say "$run" 'object_add memory-backend-memfd,id=m1,size=256M,share=on' \
            'device_add pc-dimm,id=d1,memdev=m1'
        wait_for "$run" ^PLUGGED
        kill "$holder"
        ;;
    kept)
        for k in 0 1 2 3; do
            echo "version $k" > "$share/work/file"
            touch -d @1000000000 "$share/work/file"
            ln -sfn "target $k" "$share/work/link"
            echo "name $k" > "$share/work/new-$k"
            : > "$share/work/round-$k"
            for _ in $(seq 400); do
                [ ! -e "$share/work/seen-$k" ] || break
                sleep 0.2
            done
        done
        ;;
    reset)
        wait_for "$run" READY || return
        sleep 2
        say "$run" system_reset
        ;;
    killed)
        wait_for "$run" READY || return
        kill -9 "$server"
        sleep 10
        say "$run" quit
        ;;
    esac
}

# One guest runs one scenario over one server; its lines come to `run/lines`.
run_guest() {
    local scenario=$1 kind=$2 name=$3 memory=${MEMORY:-256M} status=0
    shift 3
    run=$work/run-$name
    rm -rf "$run"
    mkdir -p "$run"
    case $scenario in hotplug | descriptors | slow) memory=256M,slots=2,maxmem=2G ;; esac
    start_server "$kind" "$run/socket" "$run/server" "$@" || return 0
    meddle "$run" "$scenario" > "$run/meddle" 2>&1 &
    local meddler=$! reboot=(-no-reboot)
    case $scenario in reboot | reset) reboot=() ;; esac
    qemu "$run" "$scenario" "$run/socket" -m "$memory" -device "$(device)" \
        "${reboot[@]}" || status=$?
    kill "$meddler" 2> "$work/none" || true
    tr -d '\r' < "$run/console" | sed -n '/^== begin/,$p' > "$run/lines"
    [ "$scenario" != killed ] || return 0
    [ $status = 0 ] || failure "$name: qemu ended with $status: $(tail -n 2 "$run/qemu")"
    wait "$server" || failure "$name: the server ended with $?: $(tail -n 2 "$run/server")"
    check_end "$name" "$kind"
}

# The guest came to its end, its kernel complains of nothing but a timer that a busy host is late
# with (it doesn't look for stalls), and the server met no fault.
check_end() {
    grep -q '^== end' "$run/lines" || failure "$1: the guest didn't come to its end"
    ! sed -n '/^== kernel/,/^== end/p' "$run/lines" |
        grep -v -e '^==' -e '8254 timer' -e 'clocksource' -e 'stall warnings suppressed' ||
        failure "$1: the guest's kernel complains"
    [ "$2" = virtiofsd ] || ! grep -E 'ERROR|panicked' "$run/server" |
        grep -v 'No more file descriptors' || failure "$1: the server has an error"
}

# Whether the guest's lines that begin with a word are those of standard input.
expect() {
    local name=$1 word=$2
    grep "^$word " "$run/lines" > "$run/got" || true
    cat > "$run/wanted"
    diff "$run/wanted" "$run/got" > "$run/diff" || {
        failure "$name: other lines $word"
        head -n 20 "$run/diff"
    }
}

sum() { sha256sum < "$1" | sed 's/ .*//'; }
list_sums() { (cd "$share/files" && find . -type f | sort |
    while read -r f; do echo "SUM $(sha256sum "$f")"; done); }

# What the guest sees is what stands on the host, and what it wrote came to the host.
whole() {
    local kind=$1 name=$2 f
    shift 2
    make_files
    run_guest whole "$kind" "$name" "$@"
    (cd "$share/files" && find . | sort | sed 's/^/NAME /') | expect "$name" NAME
    list_sums | expect "$name" SUM
    echo 'MANY 303' | expect "$name" MANY
    printf 'SAME %s\n' copy direct odd | expect "$name" SAME
    for f in copy direct odd; do echo "WROTE $(sum "$share/work/$f") $f"; done |
        expect "$name" WROTE
    for _ in 1 2 3 4; do echo "READER $(sum "$share/files/m8")"; done | expect "$name" READER
    echo "BIG $(sum "$share/files/big")" | expect "$name" BIG
    echo "AGAIN $(sum "$share/files/m8")" | expect "$name" AGAIN
    grep -q 'stat 10000 times, 0 failed' "$run/lines" || failure "$name: stats"
    [ -z "$(find "$share/work" -name 't[0-9]')" ] || failure "$name: files are left"
    grep '^CALL ' "$run/lines" > "$work/calls-$name"
    echo "$name: done, $(grep -c '^SUM ' "$run/lines") sums, $(wc -l < "$work/calls-$name") calls"
}

# Lines of sums that the guest tells more than once.
all_are() {
    local name=$1 word=$2 wanted=$3 count
    count=$(grep -c "^$word " "$run/lines" || true)
    [ "$count" -gt 0 ] && [ "$count" = "$(grep -c "^$word $wanted$" "$run/lines")" ] ||
        failure "$name: other lines $word"
    echo "$name: done, $count readings"
}

# Makes a script that runs a program of the other Debian.
make_other() {
    {
        printf '#!/usr/bin/env bash\nroot=%q\n' "$root"
        printf '%s\nother "$@"\n' "$(declare -f other)"
    } > "$work/other"
    chmod 755 "$work/other"
}

# Each option of virtiofsd's is served, or refused by its name; of wrong ones both say the same.
options() {
    make_other
    python3 "$here/testing/options.py" "$DAEMON" "$work/other" /usr/libexec/virtiofsd ||
        failure "options"
}

guest() {
    options
    whole ours whole
    THREADS=4 whole ours whole-threads
    QUEUES=3 whole ours whole-3 --num-request-queues 3 --cache never --killpriv-v2
    whole virtiofsd whole-virtiofsd
    for name in whole whole-threads; do
        diff "$work/calls-whole-virtiofsd" "$work/calls-$name" ||
            failure "$name: a call came out otherwise than over virtiofsd"
    done
    make_files
    run_guest readonly ours readonly --readonly
    list_sums | expect readonly SUM
    ! grep 'NOT REFUSED' "$run/lines" || failure "readonly: a change is made"
    THREADS=4 run_guest pause ours pause
    all_are pause READER "$(sum "$share/files/m8")"
    ! grep 'OTHER BYTES' "$run/lines" || failure "pause: other bytes"
    run_guest unbind ours unbind
    all_are unbind READER "$(sum "$share/files/m8")"
    ! grep 'STILL THERE' "$run/lines" || failure "unbind: a device that is gone is read"
    make_files
    run_guest reboot ours reboot
    all_are reboot READER "$(sum "$share/files/m8")"
    make_files
    run_guest reset ours reset
    all_are reset READER "$(sum "$share/files/m8")"
    grep -q '^AGAIN' "$run/lines" || failure "reset: the guest didn't come again"
    kept
    hotplug
    slow
    frozen 0
    frozen 4
    descriptors
    run_guest killed ours killed
    grep '^AFTER' "$run/lines" || echo "killed: calls of the guest wait"
}

# Memory comes and goes, and the daemon lets go of what went. The run's name may be another.
hotplug() {
    local name=${1:-hotplug}
    run_guest hotplug ours "$name"
    all_are "$name" BIG "$(sum "$share/files/big")"
    all_are "$name" READER "$(sum "$share/files/m8")"
    grep -q '^PLUGGED in' "$run/lines" || failure "$name: no memory came"
    grep -q '^PLUGGED out' "$run/lines" || failure "$name: no memory went"
    [ "$(cat "$run/lent")" = $'524288\n262144' ] ||
        failure "$name: the daemon has other memory mapped than it was lent: $(cat "$run/lent")"
}

# What the guest keeps is as the host has it, with each option that lets it keep more.
kept() {
    local k
    make_files
    run_guest kept ours kept --negative-timeout=1 --cache-symlinks --no-flush --keep-cache
    for k in 0 1 2 3; do printf 'FILE version %s\n' $k $k $k; done | expect kept FILE
    for k in 0 1 2 3; do printf 'LINK target %s\n' $k $k; done | expect kept LINK
    for k in 0 1 2 3; do echo "NEW name $k"; done | expect kept NEW
}

# A file on which the host has a lease takes long to open; memory that comes then doesn't wait for
# it, nor do other reads.
slow() {
    make_files
    THREADS=4 run_guest slow ours slow
    all_are slow READER "$(sum "$share/files/m8")"
    grep -q '^PLUGGED in' "$run/lines" || failure "slow: no memory came"
    grep -q '^STILL SLOW' "$run/lines" || failure "slow: memory came when the file was open"
    grep -q '^SLOW slow' "$run/lines" || failure "slow: the file isn't read"
}

# A file system of the host that is frozen for a while: frozen.py.
frozen() {
    local status=0
    make_files
    python3 "$here/testing/frozen.py" "$DAEMON" "$work" "$root" "$1" || status=$?
    [ $status != 3 ] || echo "frozen: not tried, since this host freezes no file system"
    case $status in 0 | 3) ;; *) failure "frozen, $1 threads a queue" ;; esac
}

# The guest takes all descriptors: it is told ENFILE or EMFILE, memory still comes, and files are
# read when some are free again.
descriptors() {
    make_files
    run_guest descriptors ours descriptors --rlimit-nofile 1600
    grep -q '^TAKEN .*oo many open files' "$run/lines" ||
        failure "descriptors: the guest isn't told"
    grep -q '^PLUGGED in' "$run/lines" || failure "descriptors: no memory came"
    all_are descriptors BIG "$(sum "$share/files/big")"
}
