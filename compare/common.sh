# What compare/run and compare/bench share: makes the library and this package. To be sourced at the repository's root.
# Leaves in lib the archive, and in out the folder of made files.

leave_out() {
    echo "compare: left out, since $1"
    exit 0
}

# Runs a command and shows what it wrote only where it fails.
quietly() {
    local log
    log=$(mktemp)
    if ! "$@" >"$log" 2>&1; then
        cat "$log"
        rm -f "$log"
        echo "compare: failed: $*"
        exit 1
    fi
    rm -f "$log"
}

for tool in rustc cargo; do
    command -v "$tool" >/dev/null || leave_out "there is no $tool on this machine"
done

out=$PWD/target/compare
mkdir -p "$out"
if [ -n "${COMPARE_LIB_DIR:-}" ]; then
    lib=$COMPARE_LIB_DIR/libcapi.a
else
    quietly tools/staticlib
    lib=$PWD/target/staticlib/libcapi.a
fi
(cd compare && quietly cargo build --release --offline)
