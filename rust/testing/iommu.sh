# The daemon behind an IOMMU: sourced by ./test. Without a guest by front-ends that have one, honest
# or not (iommu_checks.c); then with a guest and each of its IOMMUs.

# A driver behind an IOMMU, and front-ends that have one, honest or not.
front_ends() {
    local threads
    SECONDS_EACH=${SECONDS_EACH:-60}
    compile iommu iommu.c iommu_checks.c iommu_lies.c front.c
    for threads in 0 4; do
        THREADS=$threads EVENT_INDEX=$((threads / 4)) try iommu serves 300
        THREADS=$threads try iommu pages
        THREADS=$threads EVENT_INDEX=$((threads / 4)) try iommu last
        THREADS=$threads EVENT_INDEX=$((threads / 4)) try iommu large
        THREADS=$threads try iommu restarts 300
        THREADS=$threads try iommu stops
        THREADS=$threads try iommu flies
        THREADS=$threads EVENT_INDEX=$((threads / 4)) try iommu stores 30
        THREADS=$threads EVENT_INDEX=$((threads / 4)) try iommu anyhow "$SECONDS_EACH"
    done
    try iommu numbers
    try iommu many 1000000
    try iommu channels
    try iommu marks
}

# By the guest's lines and the daemon's log the device is behind the IOMMU.
is_behind_it() {
    grep -q '^FEATURES .\{33\}1' "$run/lines" ||
        failure "$1: the driver didn't take VIRTIO_F_ACCESS_PLATFORM"
    [ "$IOMMU" = none ] || grep -q 'an IOMMU translates' "$run/server" ||
        failure "$1: the device isn't behind the IOMMU"
}

# A tree unpacked, git and fio (suites.sh) have the outcomes that they have without an IOMMU.
suites_behind_it() {
    local kind=$1 names=${SUITES:-tree git fio}
    names=${names// /,}
    local wanted=$work/suites-of-none-$names got=$work/suites-of-$kind-$names
    take_suites
    [ -s "$wanted" ] || IOMMU=none PLATFORM=off outcomes "$names" none > "$wanted"
    outcomes "$names" "$kind" > "$got"
    [ "$(wc -l < "$got")" -gt 3 ] || failure "suites-$kind: no outcomes"
    diff "$wanted" "$got" || failure "suites-$kind: other outcomes than without an IOMMU"
    echo "suites-$kind: $(wc -l < "$got") outcomes"
}

outcomes() {
    make_files
    GUEST_SECONDS=${GUEST_SECONDS:-3600} MEMORY=1536M DISK=$work/suites.disk run_guest \
        "suite suites=$1 fio=${FIO_SIZE:-6M}" ours "suites-$2" >&2
    sed -n 's/^RESULT //p' "$run/lines" | sort
}

# A guest with one of the IOMMUs, and four threads a queue. PARTS of the environment names the parts
# to run. `platform` has no IOMMU, and VIRTIO_F_ACCESS_PLATFORM as in a confidential guest.
guest_behind() {
    local kind=$1 IOMMU=$1 PLATFORM=on THREADS=4 part words=()
    [ "$kind" != platform ] || IOMMU=none
    for part in ${PARTS:-whole pause unbind reboot reset hotplug migrate suites}; do
        make_files
        case $part in
        whole)
            whole ours "whole-$kind"
            is_behind_it "whole-$kind"
            ;;
        pause | unbind | reboot | reset)
            run_guest "$part" ours "$part-$kind"
            all_are "$part-$kind" READER "$(sum "$share/files/m8")"
            ! grep -E 'OTHER BYTES|STILL THERE' "$run/lines" || failure "$part-$kind"
            ;;
        hotplug) hotplug "hotplug-$kind" ;;
        migrate)
            : > "$work/migrations"
            travel migrate ours ours ours
            sum_up
            ;;
        suites) suites_behind_it "$kind" ;;
        esac
    done
}

# By words: `front-ends`, and kinds of IOMMU.
iommu() {
    local kind
    [ $# -gt 0 ] || set -- front-ends strict lazy virtio platform
    for kind in "$@"; do
        case $kind in
        front-ends) front_ends ;;
        strict | lazy | virtio | platform) guest_behind "$kind" ;;
        *) failure "no such IOMMU: $kind" ;;
        esac
    done
}
