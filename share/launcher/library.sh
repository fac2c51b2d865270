# The shared library of a clone, for the launcher, which sources this file.

# Proves and builds it, where it isn't there or is older than its sources, and writes its path. The shell, the page, pictures
# and exports then ask it.
make_library() {
    local folder=$top/crates/lrp_c/out/library
    if [ ! -d "$top/crates" ]; then
        echo "fizhedul: '--library' builds the library of a clone, and there are no sources here; the package libfizhedul1 has it" >&2
        exit 70
    fi
    if is_stale; then "$top/tools/build_program" || exit; fi
    "$top/packaging/library/archive" >&2 || exit
    "$top/packaging/library/build" "$folder" >&2 || exit
    echo "$folder/lib/libfizhedul.so.1"
}
