# Attacks of a guest's on virtiofsd and on this daemon: sourced by ./test. attacks.c makes each.
# attacks.txt names them, with their outcomes; docs/TRUST.md has its rows.

# The outcome of an attack: `survives`, `ends`, `serves no more`, or `a file outside is reached`.
outcome() {
    local daemon=$1 name=$2 status=0
    make_yard attack
    mkdir -p "$work/yard/share/race"
    timeout $((SECONDS_EACH + 120)) "$work/attacks" "$daemon" "$work/yard/share" "$name" \
        "$SECONDS_EACH" > "$work/attack" 2> "$work/attack.errors" || status=$?
    case $status in
    0) echo 'survives' ;;
    2) echo 'a file outside is reached' ;;
    *) grep -q ENDED "$work/attack" && echo ends || echo 'serves no more' ;;
    esac
}

# Each row of attacks.txt: by both daemons, and in TRUST.
hostile() {
    local name attack theirs ours wanted_theirs wanted_ours
    SECONDS_EACH=${SECONDS_EACH:-30}
    take_virtiofsd
    make_virtiofsd
    compile attacks attacks.c front.c
    while IFS='|' read -r name attack wanted_theirs wanted_ours; do
        theirs=$(outcome "$work/virtiofsd" "$name")
        ours=$(outcome "$DAEMON" "$name")
        printf '%-20s virtiofsd: %-24s here: %s\n' "$name" "$theirs" "$ours"
        [ "$theirs|$ours" = "$wanted_theirs|$wanted_ours" ] ||
            failure "hostile $name: it isn't: $wanted_theirs, and here: $wanted_ours"
        grep -qxF "|$attack|$wanted_theirs|$wanted_ours|" "$here/../docs/TRUST.md" ||
            failure "hostile $name: TRUST has another row"
    done < "$here/testing/attacks.txt"
}
