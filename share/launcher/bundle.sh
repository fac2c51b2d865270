# What a bundle knows of itself: what was proved of its program, and the sums of its files. Sourced by the launcher, which
# has set `top`.

# The prover's verdict on the program, with the sums of the program and of all sources that it was made of.
proof() {
    local name rest
    local -A told=()
    if [ ! -r "$top/proof/verdict" ]; then
        echo 'verdict none: no record of a proof was bundled with the program'
        while read -r rest name; do
            [ "$name" != lrp_main ] || echo "program sha256 $rest"
        done <"$top/sums"
        return
    fi
    while read -r name rest; do told[$name]=$rest; done <"$top/proof/verdict"
    printf 'verdict %s\n' "${told[lrp_main]}"
    printf 'program sha256 %s\nsources sha256 %s\n' "${told[program]}" "${told[sources]}"
    printf 'proof of %d crates, as proof/verdict and proof/sources tell\n' $((${#told[@]} - 3))
}

# Tells each file that is missing, differs from what was bundled, or was added; says whether there was none. It needs
# nothing of /dev or /tmp, which a small root may lack.
compare() {
    local sum name line IFS=$'\n' bad=0
    local -A bundled=([sums]=itself)
    cd "$top" && shopt -s globstar dotglob nullglob || exit 70
    while IFS=' ' read -r sum name; do bundled[$name]=$sum; done <sums
    set -f
    for line in $(LC_ALL=C sha256sum --quiet -c sums 2>&-); do
        bad=$((bad + 1))
        case $line in
            *': FAILED open or read') echo "${line%: FAILED*} is missing" ;;
            *) echo "${line%: FAILED} differs" ;;
        esac
    done
    set +f
    for name in **; do
        if [ ! -d "$name" ] && [ -z "${bundled[$name]+known}" ]; then
            bad=$((bad + 1))
            echo "$name was added"
        fi
    done
    if [ "$bad" -gt 0 ]; then
        echo "not as it was bundled: $bad files"
        return 1
    fi
    echo "as it was bundled: ${#bundled[@]} files"
}

# Compares the files with their sums, and ends.
verify() {
    if [ ! -r "$top/sums" ]; then
        echo "fizhedul: '--verify' compares a bundle with its sums, and there are none here; 'dpkg --verify fizhedul' does it for the package" >&2
        exit 2
    fi
    if [ -z "$(command -v sha256sum)" ]; then
        echo "fizhedul: 'sha256sum', by which the files are compared, is missing" >&2
        exit 70
    fi
    compare
    exit
}
