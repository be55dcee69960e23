# Read by `vendor`, `test` and `try_package`: packages of another Debian (trixie), unpacked to a
# folder and not installed, by an apt with lists, packages and a state of its own. `folder` names
# the folder. By the environment: DEBIAN, the archive's address (else where this machine's apt takes
# packages from); SUITE.
suite=${SUITE:-trixie}
export LC_ALL=C

fail() {
    echo "$(basename "$0"): $*" >&2
    exit 1
}

# The archive's address.
archive_of_debian() {
    local debian=${DEBIAN:-}
    [ -n "$debian" ] || debian=$(grep -hoE '^[^#]*https?://[^ ]+/debian/?( |$)' \
        /etc/apt/sources.list /etc/apt/sources.list.d/* 2> "$folder/none" |
        grep -oE 'https?://[^ ]+' | head -n 1 || true)
    [ -n "$debian" ] || fail "no archive of Debian's is known: set DEBIAN to its address"
    echo "$debian"
}

# Makes that apt, which knows of no package that is installed.
make_apt() {
    local debian
    debian=$(archive_of_debian)
    mkdir -p "$folder"/apt/{lists/partial,cache/archives/partial}
    : > "$folder/apt/status"
    echo "deb [arch=amd64 signed-by=/usr/share/keyrings/debian-archive-keyring.gpg]" \
        "$debian $suite main" > "$folder/apt/sources"
    cat > "$folder/apt/config" << END
Dir::Etc::SourceList "$folder/apt/sources";
Dir::Etc::SourceParts "/dev/null";
Dir::Etc::Preferences "/dev/null";
Dir::Etc::PreferencesParts "/dev/null";
Dir::State "$folder/apt";
Dir::State::status "$folder/apt/status";
Dir::Cache "$folder/apt/cache";
APT::Architecture "amd64";
APT::Architectures "amd64";
Acquire::Languages "none";
END
}

theirs() { APT_CONFIG=$folder/apt/config "$@"; }

# The packages that these need, and which of them are wanted (a pattern of grep's).
needed() {
    local pattern=$1
    shift
    theirs apt-get -s install --no-install-recommends "$@" | sed -n 's/^Inst \([^ ]*\) .*/\1/p' |
        grep -E "$pattern"
}

# Downloads packages to a folder below apt, but those that are there, and unpacks all of them to
# another.
unpack() {
    local from=$folder/apt/$1 to=$2 package wanted=()
    shift 2
    mkdir -p "$from" "$to"
    for package in "$@"; do
        compgen -G "$from/${package}_*.deb" > "$folder/none" || wanted+=("$package")
    done
    if [ ${#wanted[@]} -gt 0 ]; then
        (cd "$from" && theirs apt-get download "${wanted[@]}") ||
            fail "apt can't download ${wanted[*]}"
    fi
    for package in "$@"; do dpkg-deb -x "$from/${package}"_*.deb "$to"; done
}
