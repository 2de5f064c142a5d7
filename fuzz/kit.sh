# Read by the scripts of this folder: the fuzzer's parts compiled, linked and run by the kit, as tools/kit.sh finds it.
command=${0##*/}
. "$(dirname "$0")/../tools/kit.sh"

room=$here/target/fuzz

# compile SOURCE OBJECT WORD...
compile() {
    source=$1
    object=$2
    shift 2
    "$toolchain/bin/clang" --target=x86_64-unknown-linux-gnu --no-default-config -std=gnu11 -O2 -fPIC -Wall -Wextra -DPENUMBRICO_NO_HEADERS \
        -I"$here/include" -I"$here/bench" "$@" -c "$source" -o "$object" || fail "$source does not compile"
}

make_objects() {
    mkdir -p "$room/objects" || exit 1
    rm -f "$room"/objects/*.o
    for part in "$here"/fuzz/*.c; do compile "$part" "$room/objects/$(basename "$part" .c).o"; done
}

# link_fuzzer PROGRAM FILE...: the fuzzer over two programs, each an object or an archive
link_fuzzer() {
    program=$1
    shift
    lib=$toolchain/lib
    "$toolchain/bin/ld.lld" -pie -z now -dynamic-linker "$lib/ld-linux-x86-64.so.2" -o "$program" "$lib/Scrt1.o" "$lib/crti.o" "$lib/crtbeginS.o" \
        "$room"/objects/*.o "$@" "$lib/libc.so.6" "$lib/libc_nonshared.a" "$lib/libgcc.a" "$lib/libgcc_s.so.1" "$lib/crtendS.o" "$lib/crtn.o" ||
        fail "$program does not link"
}

# run_fuzzer PROGRAM WORD...: over the vectors, in an order that no locale changes
run_fuzzer() {
    LC_ALL=C
    run_x86 "$@" "$here"/crates/vectors/data/*.trf
}
