# What a guest does with what is shared, in functions by name. Lines that the host compares begin
# with a word in capitals.

# A line of commands is echoed and run; a status other than 0 is told.
run() {
    echo "# $*"
    eval "$*" || echo "[status $?]"
}
mount_it() { run mount -t virtiofs shared /mnt; }
drop() { echo 3 > /proc/sys/vm/drop_caches; }
sum_of() { sha256sum | sed 's/ .*//'; }
names() { (cd "$1" && find . | sort | sed 's/^/NAME /'); }
sums() { (cd "$1" && find . -type f | sort |
    while read -r f; do echo "SUM $(sha256sum "$f")"; done); }
# The driver goes and comes back: as a module, or from its device where it is a part of the kernel
# itself.
reload() {
    local at=/sys/bus/virtio/drivers/virtiofs device
    device=$(basename $at/virtio*)
    if [ -e /mod/virtiofs.ko ]; then
        run rmmod virtiofs
        run insmod /mod/virtiofs.ko
    else
        run "echo $device > $at/unbind"
        run "echo $device > $at/bind"
    fi
}
kilobytes() { sed -n 's/MemTotal: *\([0-9]*\).*/\1/p' /proc/meminfo; }

# Bytes by chance are written in three ways, and read back when no cache has them. The host sums the
# files. (A file that is made with O_DIRECT has it on the host too, over virtiofsd, and takes no odd
# length; one that is there already hasn't.)
write_back() {
    head -c 5000001 /dev/urandom > /tmp/r
    cp /tmp/r /mnt/work/copy
    : > /mnt/work/direct
    dd if=/tmp/r of=/mnt/work/direct bs=1M oflag=direct conv=fsync 2> /tmp/dd || cat /tmp/dd
    dd if=/tmp/r of=/mnt/work/odd bs=4097 conv=fsync 2> /tmp/dd || cat /tmp/dd
    sync
    drop
    for f in copy direct odd; do
        cmp /tmp/r /mnt/work/$f && echo "SAME $f"
        echo "WROTE $(sum_of < /tmp/r) $f"
    done
}

# Four read the same file at once, past the guest's cache, and two others make and remove files.
at_once() {
    for k in 1 2 3 4; do
        dd if=/mnt/files/m8 bs=1M iflag=direct 2> /tmp/dd.$k | sum_of | sed 's/^/READER /' &
    done
    for k in 1 2; do
        (
            i=0
            while [ $i -lt 60 ]; do
                echo $i > /mnt/work/t$k && rm /mnt/work/t$k || echo "FAILED $k"
                i=$((i + 1))
            done
        ) &
    done
    wait
}

scenario_whole() {
    mount_it
    run cat /mnt/files/greeting
    run 'echo READ $(cat /mnt/files/none 2>&1)'
    names /mnt/files
    sums /mnt/files
    drop
    echo "MANY $(ls -la /mnt/files/many | wc -l)"
    write_back
    drop
    at_once
    ask calls /mnt/work/calls | sed 's/^/CALL /'
    run ask stat 10000 /mnt/files/m1
    echo "BIG $(dd if=/mnt/files/big bs=1M 2> /tmp/dd | sum_of)"
    run umount /mnt
    reload
    mount_it
    echo "AGAIN $(sum_of < /mnt/files/m8)"
    run umount /mnt
    mount_it
    run cat /mnt/files/greeting
    run umount /mnt
}

# Says whether the file has other bytes, or only the reply had them, and keeps both.
other_bytes() {
    echo "OTHER BYTES $1: $(cmp -l /tmp/r /mnt/work/w | wc -l) of them"
    drop
    cmp /tmp/r /mnt/work/w && echo "OTHER BYTES in the reply alone"
    mv /mnt/work/w "/mnt/work/w-$1"
    cp /tmp/r "/mnt/work/r-$1"
}

# The host stops and resumes the guest meanwhile: each time the rings stop and go on where they
# stood.
scenario_pause() {
    mount_it
    echo READY
    i=0
    while [ $i -lt 16 ]; do
        drop
        echo "READER $(dd if=/mnt/files/m8 bs=256k iflag=direct 2> /tmp/dd | sum_of)"
        ask missing 300 /mnt/none | grep -v ' 0 failed'
        head -c 300000 /dev/urandom > /tmp/r
        cp /tmp/r /mnt/work/w
        drop
        cmp /tmp/r /mnt/work/w || other_bytes $i
        i=$((i + 1))
    done
    run umount /mnt
}

# What the guest may keep, while the host changes the directory: in each round another version of a
# file, of the same size and time, another link and another name. The file is read at once, and then
# twice when it has been left alone for a while.
scenario_kept() {
    local i=0
    mount_it
    while [ $i -lt 4 ]; do
        until [ -e /mnt/work/round-$i ]; do sleep 0.2; done
        echo "FILE $(cat /mnt/work/file)"
        sleep 4
        for _ in 1 2; do
            echo "FILE $(cat /mnt/work/file)"
            echo "LINK $(readlink /mnt/work/link)"
        done
        echo "NEW $(cat /mnt/work/new-$i)"
        cat /mnt/work/new-$((i + 1)) 2> /tmp/none && echo "NEW too early"
        : > /mnt/work/seen-$i
        i=$((i + 1))
    done
    run umount /mnt
}

# Lines for a file system that the host freezes (frozen.py).
scenario_frozen() {
    local boot
    mount_it
    boot=$(cat /proc/sys/kernel/random/boot_id)
    i=0
    while :; do
        echo "$boot-$i" | dd of=/mnt/work/frozen/lines oflag=append conv=notrunc,fsync 2> /tmp/dd
        echo "LINE $i"
        i=$((i + 1))
        sleep 0.3
    done
}

# The guest reboots in the middle of reading, and reads again.
scenario_reboot() {
    mount_it
    echo "READER $(sum_of < /mnt/files/m8)"
    if [ ! -e /mnt/work/rebooted ]; then
        echo > /mnt/work/rebooted
        (while :; do dd if=/mnt/files/m8 of=/dev/null bs=1M iflag=direct 2> /tmp/dd; done) &
        sleep 2
        reboot -f
        sleep 60
    fi
    echo "AGAIN $(sum_of < /mnt/files/m1)"
    run umount /mnt
}

# The driver goes and comes back, and so does the device in the middle of reading, mounted as it is.
scenario_unbind() {
    local at=/sys/bus/virtio/drivers/virtiofs device
    device=$(basename $at/virtio*)
    for k in 1 2 3; do
        mount_it
        echo "READER $(sum_of < /mnt/files/m8)"
        run umount /mnt
        reload
    done
    mount_it
    dd if=/mnt/files/big of=/dev/null bs=1M 2> /tmp/dd &
    sleep 0.3
    run "echo $device > $at/unbind"
    wait
    cat /mnt/files/m1 > /tmp/m1 2> /tmp/none && echo "STILL THERE"
    run umount /mnt
    run "echo $device > $at/bind"
    mount_it
    echo "READER $(sum_of < /mnt/files/m8)"
    run umount /mnt
}

# Whether there is so much memory in the end, within so many seconds: `-gt 400000`, `-lt 400000`.
comes_to() {
    local i=0
    while [ $i -lt 120 ] && ! [ "$(kilobytes)" "$1" "$2" ]; do
        drop
        echo "READER $(dd if=/mnt/files/m8 bs=256k iflag=direct 2> /tmp/dd | sum_of)"
        sleep 1
        i=$((i + 1))
    done
    [ "$(kilobytes)" "$1" "$2" ]
}

# Memory comes while one file takes long to open, and files are read meanwhile.
scenario_slow() {
    echo online_movable > /sys/devices/system/memory/auto_online_blocks
    mount_it
    cat /mnt/work/slow > /tmp/slow &
    slow=$!
    sleep 1
    echo READY
    comes_to -gt 400000 && echo "PLUGGED in"
    kill -0 $slow && echo "STILL SLOW"
    echo PLUGGED
    wait $slow
    echo "SLOW $(cat /tmp/slow)"
    run umount /mnt
}

# The host plugs memory in meanwhile, the guest reads into it, and the host takes it out again.
scenario_hotplug() {
    echo online_movable > /sys/devices/system/memory/auto_online_blocks
    mount_it
    echo READY
    comes_to -gt 400000 && echo "PLUGGED in"
    dd if=/dev/zero of=/tmp/zeros bs=1M count=180 2> /tmp/dd
    echo "BIG $(dd if=/mnt/files/big bs=32M iflag=direct 2> /tmp/dd | sum_of)"
    rm /tmp/zeros
    drop
    echo ENOUGH
    comes_to -lt 400000 && echo "PLUGGED out"
    sleep 10
    echo "BIG $(dd if=/mnt/files/big bs=32M iflag=direct 2> /tmp/dd | sum_of)"
    run umount /mnt
}

# The host resets the guest in the middle of reading.
scenario_reset() {
    mount_it
    echo "READER $(sum_of < /mnt/files/m8)"
    if [ ! -e /mnt/work/rebooted ]; then
        echo > /mnt/work/rebooted
        echo READY
        while :; do dd if=/mnt/files/m8 of=/dev/null bs=1M iflag=direct 2> /tmp/dd; done
    fi
    echo "AGAIN $(sum_of < /mnt/files/m1)"
    run umount /mnt
}

# Nothing can be changed, and all can be read.
scenario_readonly() {
    mount_it
    sums /mnt/files
    for command in 'echo x > /mnt/files/greeting' 'echo x > /mnt/new' 'mkdir /mnt/d' \
        'rm /mnt/files/greeting' \
        'mv /mnt/files/greeting /mnt/g' 'ln /mnt/files/greeting /mnt/g' 'ln -s a /mnt/l' \
        'chmod 600 /mnt/files/greeting' 'touch /mnt/files/greeting' \
        'truncate -s 1 /mnt/files/greeting' \
        'rmdir /mnt/files/many' 'mknod /mnt/p p'; do
        eval "$command" 2>&1 | grep -q 'Read-only file system' && echo "REFUSED $command" ||
            echo "NOT REFUSED $command"
    done
    run umount /mnt
}

# A thing that is timed, in the guest's own seconds; and how often the device interrupted meanwhile.
time_it() {
    local before
    drop
    before=$(interrupts)
    ask "$@" | tee /tmp/timed
    echo "TIME $(($(interrupts) - before)).0 interrupts: $(sed 's/.*ms: //' /tmp/timed)"
}
interrupts() { awk \
    '/virtio/ { for (k = 2; k <= NF && $k ~ /^[0-9]+$/; k++) sum += $k } END { print sum + 0 }' \
    /proc/interrupts; }

scenario_times() {
    local how each threads
    mount_it
    mkdir /mnt/work/made /mnt/work/out
    cp /mnt/tar /tmp/tar
    cat /mnt/files/big > /tmp/none
    for threads in 1 8; do time_it small 4000 /mnt/files/big $threads; done
    for each in 65536 1048576; do
        for how in '' direct; do
            # shellcheck disable=SC2086
            time_it read $each /mnt/files/big $how
            # shellcheck disable=SC2086
            time_it write $each /mnt/work/written $how
        done
    done
    for threads in 1 4 8; do time_it jobs 1024 /mnt/files/big $threads; done
    time_it stat 10000 /mnt/files/m1
    time_it missing 10000 /mnt/none
    time_it open 5000 /mnt/files/m1
    time_it look 1 /mnt/ten-thousand
    time_it create 5000 /mnt/work/made/
    time_it run tar -xf /tmp/tar -C /mnt/work/out
    run umount /mnt
}

# What a user does, timed by the row. One guest has a device for each daemon, and does everything on
# each of them in turn. git and the archive are on a disk of its own.
word_of() { sed -n "s/.*$1=\([^ ]*\).*/\1/p" /proc/cmdline | tr ',' ' '; }
feel() {
    local tag=$1 name=$2 sent
    shift 2
    sync
    drop
    sent=$(interrupts)
    if ask "$@" > /tmp/felt 2>&1; then
        sed -n "s/^TIME \([0-9.]*\) ms: .*/TIME \1 ms: $tag $name/p" /tmp/felt
        echo "TIME $(($(interrupts) - sent)).0 interrupts: $tag $name"
    else
        echo "FAILED $tag $name: $(tail -n 1 /tmp/felt)"
    fi
}
feel_all() {
    local tag=$1 at=/disk/m/$1
    mkdir "$at/w"
    feel "$tag" 'untar' run tar -xf /tmp/archive -C "$at/w"
    feel "$tag" 'git status, first' run chroot /disk git -C "/m/$tag/w" status --porcelain
    feel "$tag" 'git status, again' run chroot /disk git -C "/m/$tag/w" status --porcelain
    feel "$tag" 'ls -lR' run sh -c "ls -lR $at/w > /tmp/list"
    feel "$tag" 'rm -r' run rm -r "$at/w"
    feel "$tag" '4 KiB at random, 1 job' small 2000 "$at/big" 1
    feel "$tag" '4 KiB at random, 8 jobs' small 4000 "$at/big" 8
    feel "$tag" '64 KiB in order, 4 jobs' jobs 1024 "$at/big" 4
    feel "$tag" '1 MiB in order' read 1048576 "$at/big" direct
    feel "$tag" '64 KiB in order, cached' read 65536 "$at/big"
}
scenario_feel() {
    local tag tags round
    tags=$(word_of tags)
    mkdir /disk
    run mount -t ext4 -o ro /dev/vda /disk
    mount -o bind /dev /disk/dev
    mount -o bind /proc /disk/proc
    mount -t tmpfs tmp /disk/m
    for tag in $tags; do
        mkdir "/disk/m/$tag"
        run mount -t virtiofs "$tag" "/disk/m/$tag"
    done
    cp /disk/archive /tmp/archive
    for round in $(seq "$(word_of rounds)"); do
        for tag in $tags; do feel_all "$tag"; done
        case $tags in *' '*) tags="${tags#* } ${tags%% *}" ;; esac
        echo "ROUND $round"
    done
    for tag in $tags; do run umount "/disk/m/$tag"; done
}

# Holds all files that it may, in the background.
hold_all() {
    hold 3000 /mnt/work/held/ > /tmp/taken &
    until [ -s /tmp/taken ]; do sleep 1; done
    cat /tmp/taken
}

# All descriptors of the host's daemon are taken by open files; memory is plugged in meanwhile.
scenario_descriptors() {
    echo online > /sys/devices/system/memory/auto_online_blocks
    ulimit -n 20000
    mount_it
    mkdir /mnt/work/held
    hold_all
    cat /mnt/files/m1 > /tmp/m1 || echo "another file isn't opened"
    echo READY
    i=0
    while [ $i -lt 120 ] && [ "$(kilobytes)" -lt 400000 ]; do
        sleep 1
        i=$((i + 1))
    done
    [ "$(kilobytes)" -gt 400000 ] && echo "PLUGGED in"
    kill %1
    wait
    drop
    echo "BIG $(dd if=/mnt/files/big bs=1M 2> /tmp/dd | sum_of)"
    run umount /mnt
}

# The daemon is killed by the host in the middle of reading.
scenario_killed() {
    mount_it
    cat /mnt/files/greeting
    echo READY
    while :; do
        drop
        cat /mnt/files/m8 > /dev/null || echo "AFTER the daemon is gone a file can't be read"
    done
}

# The guest holds all descriptors that it may have while it goes to another host. It hears of the
# end by a file that it has open already.
scenario_migrate_full() {
    local line
    ulimit -n 20000
    mount_it
    : > /mnt/work/over
    exec 8< /mnt/work/over
    mkdir /mnt/work/held
    hold_all
    while ! read -r line <&8; do
        echo "READER waits"
        sleep 1
    done
    kill %1
    wait
    drop
    echo "BIG $(sum_of < /mnt/files/m8)"
    run umount /mnt
}

# Files are held open, made, renamed and removed while the guest goes to another host.
scenario_migrate() {
    mount_it
    mkdir -p /mnt/work/moved
    exec 7> /mnt/work/moved/held
    echo before >&7
    flags /mnt/work/moved /mnt/work/over &
    (
        i=0
        while [ ! -e /mnt/work/over ]; do
            echo $i > /mnt/work/moved/a && mv /mnt/work/moved/a /mnt/work/moved/b &&
                rm /mnt/work/moved/b ||
                echo "FAILED $i"
            i=$((i + 1))
        done
        echo "MADE $i"
    ) &
    echo READY
    while [ ! -e /mnt/work/over ]; do
        echo "READER $(dd if=/mnt/files/m1 bs=256k iflag=direct 2> /tmp/dd | sum_of)"
        drop
    done
    wait
    echo after >&7
    exec 7>&-
    echo "HELD $(cat /mnt/work/moved/held | tr '\n' ' ')"
    run umount /mnt
}

# A directory has the lists and labels that it is to have.
same() {
    { lists_of "$1" && labels_of "$1"; } > /tmp/found 2>&1
    cmp /tmp/found /tmp/wanted > /tmp/none 2>&1 || {
        echo "FAILED: $1 has other lists or labels"
        diff /tmp/wanted /tmp/found
    }
}

# Whether a user may do something there.
may() { su -s /bin/sh "$1" -c "$2" > /tmp/none 2>&1 && echo yes || echo no; }
may_there() { echo "$(may friend "echo >> $1/file") $(may friend "cat $1/masked")" \
    "$(may friend "echo >> $1/masked") $(may stranger "cat $1/file")"; }

# A new file has the default list of its directory, and a label.
inherits() {
    (umask 077 && : > "$1/later")
    [ "$(getfacl -cnp "$1/later")" = "$(getfacl -cnp "$1/dir/deep")" ] ||
        echo "FAILED: $1/later has another list"
    echo "LABEL $(cd "$1" && label_of later | sed -n 's/.*object_r:\(.*\)"/\1/p')"
    rm "$1/later"
}

# Directories with lists and labels, made before the guest goes to another host and after. While
# there is `quiet`, none is changed.
scenario_migrate_lists() {
    local at=/mnt/work/lists n=0 last=1
    . /lists.sh
    getfattr() { /bin/getfattr "$@"; } # busybox has another
    setfattr() { /bin/setfattr "$@"; }
    printf '%s:x:%s:%s::/:/bin/sh\n' root 0 0 friend 1001 1001 stranger 1004 1004 > /etc/passwd
    mount -t selinuxfs selinux /sys/fs/selinux
    cat /policy > /sys/fs/selinux/load || echo "FAILED: the policy isn't loaded"
    mount_it
    cp /mnt/work/wanted /tmp/wanted
    mkdir $at
    until [ -e /mnt/work/over ]; do
        if [ $n != 0 ]; then
            same $at/1
            same $at/$last
            drop
            same $at/1
        fi
        if [ ! -e /mnt/work/quiet ]; then
            n=$((n + 1)) last=$n
            make_lists $at/$n
            [ $n = 1 ] || fill_lists $at/1
            setfattr -n security.selinux -v system_u:object_r:other_t $at/1/plain $at/$n/plain
            same $at/$n
            same $at/1
        fi
        inherits $at/1
        [ "$(may_there $at/1)" = 'yes yes no no' ] || echo "FAILED: $(may_there $at/1)"
        echo "READER $(sum_of < /mnt/files/m1)"
    done
    run umount /mnt
}

# Suites that others wrote, in a root of their own on a disk.
scenario_suite() {
    local name
    run ifconfig lo up # for sendfile's tests
    mkdir /disk
    run mount -t ext4 /dev/vda /disk
    for name in proc sys dev; do mount -o bind /$name /disk/$name; done
    mkdir -p /dev/shm
    mount -t tmpfs tmp /disk/tmp
    mount -t tmpfs shm /dev/shm
    ln -s /proc/self/fd /dev/fd
    cp /suites /disk/
    run mount -t virtiofs shared /disk/mnt
    for name in $(word_of suites); do
        chroot /disk /usr/bin/bash /suites "$name" "$(word_of fio)"
    done
    run umount /disk/mnt
}

# Sums of all files of a directory.
sums_of() { (cd "$1" && find . -type f | sort | xargs sha256sum); }

# The daemon is replaced meanwhile, until the host says stop. Each line WRONG is a failure. A file
# that is open and removed goes on, if the daemon finds it by its handle.
replaced() {
    local k=0 wanted kept=$1
    mount -t virtiofs shared /mnt
    wanted=$(sums_of /mnt/files/one)
    exec 8>> /mnt/work/appended
    if [ "$kept" = kept ]; then
        exec 7<> /mnt/work/removed
        rm /mnt/work/removed
    fi
    (while [ ! -e /mnt/work/stop ]; do
        [ "$(sha256sum < /mnt/files/m8)" = "$(sha256sum < /mnt/files/m8)" ] || echo WRONG reader
        echo 1 > /proc/sys/vm/drop_caches
    done) &
    echo READY
    while [ ! -e /mnt/work/stop ]; do
        cp -a /mnt/files/one /mnt/work/tree
        [ "$(sums_of /mnt/work/tree)" = "$wanted" ] || echo "WRONG copy $k"
        mv /mnt/work/tree /mnt/work/moved || echo "WRONG mv $k"
        head -c 300000 /dev/urandom > /tmp/chance
        cp /tmp/chance /mnt/work/written
        echo "line $k" >&8
        [ "$kept" != kept ] || echo "kept $k" >&7
        echo 3 > /proc/sys/vm/drop_caches
        cmp /tmp/chance /mnt/work/written || echo "WRONG bytes $k"
        [ "$(ls /mnt/files/many | wc -l)" = 300 ] || echo "WRONG names $k"
        rm -r /mnt/work/moved /mnt/work/written || echo "WRONG rm $k"
        k=$((k + 1))
    done
    wait
    [ "$(wc -l < /mnt/work/appended)" = $k ] || echo WRONG lines
    [ "$kept" != kept ] || [ "$(wc -l < /proc/self/fd/7)" = $k ] || echo WRONG removed file
    echo "ROUNDS $k"
}
scenario_replaced() { replaced ''; }
scenario_kept_replaced() { replaced kept; }
