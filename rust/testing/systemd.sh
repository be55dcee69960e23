# The part of ./test that has a systemd of its own start and reload the daemon: sourced by it. That
# systemd runs in namespaces, over a read-only root with empty /run, /srv and /tmp, so it changes
# nothing of the machine.

# In the namespace: its first process, which becomes systemd. The unit is its standard input.
begin_systemd() {
    local units=/run/systemd/system name=pitskhomu-virtiofsd@ place unit
    mount --make-rprivate /
    mount -o remount,bind,ro /
    mount -t tmpfs tmpfs /run
    cp "$1" /run/daemon
    for place in /srv /tmp /var/tmp /var/log; do mount -t tmpfs tmpfs $place; done
    mount -t proc proc /proc
    mount --bind /proc/sys /proc/sys
    mount -o remount,bind,ro /proc/sys
    umount -R /sys/fs/cgroup
    mount -t cgroup2 cgroup2 /sys/fs/cgroup
    mkdir -p /srv/shared /run/log "$units/$name.service.d"
    # No service of the machine's is started, such as one that cleans /tmp.
    for unit in sysinit basic shutdown umount; do ln -s /dev/null $units/$unit.target; done
    printf '[Unit]\nDefaultDependencies=no\n' > $units/test.target
    printf '[Unit]\nDefaultDependencies=no\n[Service]\nStandardError=append:/run/log/daemon\n' \
        > $units/$name.service.d/test.conf
    sed 's,/usr/local/bin/pitskhomu-virtiofsd,/run/daemon,; s/ --syslog / /; s/kvm/root/' \
        > "$units/$name.service"
    container=other exec /lib/systemd/systemd --system --unit=test.target --log-target=null
}

# `systemctl reload` of the unit, RELOADS times under load, and refused ones.
reload_by_systemd() {
    local groups group first status=0
    groups=$(awk '$3 == "cgroup2" {print $2; exit}' /proc/mounts)
    if [ ! -x /lib/systemd/systemd ] || [ ! -w "${groups:-/none}" ]; then
        echo "systemd: not tried: there is none, or no group of cgroup v2 can be made"
        return 0
    fi
    group=$groups/pitskhomu-test
    mkdir -p "$group"
    (
        echo $BASHPID > "$group/cgroup.procs"
        exec unshare --mount --pid --cgroup --uts --ipc --net --fork --kill-child bash -c \
            ". '$here/testing/systemd.sh' && begin_systemd '$DAEMON'"
    ) < "$here/pitskhomu-virtiofsd/pitskhomu-virtiofsd@.service" > "$work/systemd" 2>&1 &
    first=$!
    sleep 2
    nsenter -t "$(pgrep -P $first)" -m -p -u -i -C -- timeout 600 python3 \
        "$here/testing/reloads.py" "${RELOADS:-100}" > "$work/reloads" 2>&1 || status=$?
    cat "$work/reloads"
    [ $status = 0 ] || failure "systemd: $(cat "$work/systemd")"
    kill -9 $first
    wait $first 2> "$work/none" || true
    sleep 1
    find "$group" -depth -type d -exec rmdir {} \;
}
