# What the scripts of this folder share.
OUT=target/bench
KIT=$(dirname "$(rt doc)")
mkdir -p "$OUT"

# The archive of the library; it is built only if it is proved.
archive() {
    if [ -z "${ARCHIVE:-}" ]; then
        sh tools/archive >"$OUT/staticlib.log" 2>&1 || { cat "$OUT/staticlib.log"; exit 1; }
        ARCHIVE=$OUT/libwhole_plan.a
        cp target/staticlib/libwhole_plan.a "$ARCHIVE"
    fi
}

machine() {
    echo "machine: $(lscpu | sed -n 's/^Model name: *//p'), $(nproc) processors, $(uname -sm); $(gcc --version | head -1); $(rt version)"
    echo
}
