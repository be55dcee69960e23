# Suites that others wrote, in a guest over this daemon and over virtiofsd: sourced by ./test. They
# come from Debian trixie to a disk of the guest's; testing/guest/suites runs them there, and tells
# each test's outcome as a line `RESULT suite test: outcome`.

suite_names=(syscalls tree python fio dbench sqlite git rsync stress)
suite_packages=(base-files base-passwd bash coreutils diffutils findutils gawk grep gzip procps \
    sed tar util-linux perl-base
    libc-bin python3.13 libpython3.13-testsuite fio dbench sqlite3 git rsync stress-ng)

# libfuse's test_syscalls, which no package has: from fuse3's source.
take_test_syscalls() {
    local from=$folder/apt/source
    sed -i '/^deb-src/d; /^deb /{p; s/^deb /deb-src /}' "$folder/apt/sources"
    theirs apt-get update >> "$work/apt" 2>&1
    mkdir -p "$from"
    (cd "$from" && theirs apt-get source --download-only fuse3 &&
        tar -xf fuse3_*.orig.tar.gz) >> "$work/apt" 2>&1
    : > "$from/fuse_config.h"
    : > "$from/config.h"
    gcc -O1 -static -D_GNU_SOURCE -I"$from" -o "$1" "$from"/fuse-*/test/test_syscalls.c
}

# The guest's disk: the packages, unpacked.
take_suites() {
    local disk=$work/suites packages
    [ ! -f "$work/suites.disk" ] || return 0
    make_apt
    theirs apt-get update > "$work/apt" 2>&1
    # What stress-ng loads for displays is large, and it does without.
    packages=$(needed . "${suite_packages[@]}" | grep -vE '^(libllvm|libz3|mesa-|libpython3-|gcc-)')
    rm -rf "$disk"
    # shellcheck disable=SC2086
    unpack suites "$disk" base-files $packages >> "$work/apt" 2>&1
    cp "$disk/usr/share/base-passwd/passwd.master" "$disk/etc/passwd"
    cp "$disk/usr/share/base-passwd/group.master" "$disk/etc/group"
    ln -sf gawk "$disk/usr/bin/awk"
    ln -sf bash "$disk/usr/bin/sh"
    mkdir -p "$disk"/{proc,sys,dev,tmp,mnt,root}
    take_test_syscalls "$disk/usr/bin/test_syscalls"
    rm -rf "$disk"/usr/share/{doc,man,locale,info}
    mke2fs -q -t ext4 -d "$disk" "$work/suites.making" 1G
    rm -r "$disk"
    mv "$work/suites.making" "$work/suites.disk"
}

# Over this daemon and over virtiofsd: what the tests tell is the same. SUITES names those that are
# wanted.
suites() {
    local name kind
    take_suites
    for name in ${SUITES:-${suite_names[*]}}; do
        for kind in ours virtiofsd; do
            make_files
            GUEST_SECONDS=${GUEST_SECONDS:-3600} MEMORY=1536M DISK=$work/suites.disk run_guest \
                "suite suites=$name fio=${FIO_SIZE:-6M}" "$kind" "suite-$name-$kind"
            sed -n 's/^RESULT //p' "$run/lines" | sort > "$work/suite-$name-$kind"
        done
        [ "$(wc -l < "$work/suite-$name-ours")" -gt 3 ] || failure "suite $name: it tells nothing"
        diff "$work/suite-$name-virtiofsd" "$work/suite-$name-ours" > "$work/suite-$name.diff" ||
            failure "suite $name: other outcomes than over virtiofsd:" \
                "$(grep '^[<>]' "$work/suite-$name.diff" | head -n 20)"
        echo "suite $name: $(wc -l < "$work/suite-$name-ours") outcomes over each"
    done
}
