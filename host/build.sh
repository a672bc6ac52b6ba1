#!/bin/sh
# Builds and runs the packages here for x86-64, which the archives are for, on x86-64 and on aarch64.
#   build.sh setup                  on aarch64, once: fetches Debian's rustc-web into $HB_HOME (no other verb needs it first)
#   build.sh rustc ARGS...          rustc for x86-64
#   build.sh cargo VERB ARGS...     cargo for x86-64, in this folder, as  build.sh cargo test --offline
#   build.sh run PROGRAM ARGS...    runs an x86-64 program
# On x86-64 these are plain rustc, plain cargo and a plain run. On aarch64: Debian's rustc-web (arm64) with Debian's amd64 std, unpacked below
# $HB_HOME and not installed; the Rattle kit's clang and C library link, and its qemu runs. That kit is the one that RATTLE_HOME names, else rt's own;
# it has to have tools for aarch64, which not every kit has.
set -eu
here=$(cd "$(dirname "$0")" && pwd -P)
T=x86_64-unknown-linux-gnu

if [ $# = 0 ]; then
    sed -n '2,/^set/s/^# \{0,1\}//p' "$0" >&2
    exit 2
fi
verb=$1
shift

if [ "$(uname -m)" = x86_64 ]; then
    case $verb in
    setup) exit 0 ;;
    rustc) exec rustc "$@" ;;
    cargo)
        cd "$here"
        CARGO_BUILD_TARGET=$T exec cargo "$@"
        ;;
    run) exec "$@" ;;
    *)
        echo "build.sh: no verb $verb" >&2
        exit 2
        ;;
    esac
fi

HB_HOME=${HB_HOME:-${XDG_CACHE_HOME:-$HOME/.cache}/rust-for-x86-64}
KIT=${RATTLE_HOME:-$(cd "$(dirname "$(readlink -f "$(command -v rt)")")/.." && pwd -P)}
tc=$KIT/on/$(uname -m)/toolchain

setup() {
    [ ! -x "$HB_HOME/cc" ] || return 0
    if [ ! -d "$tc" ]; then
        echo "build.sh: the Rattle kit has no tools for $(uname -m): name one that has in RATTLE_HOME" >&2
        exit 1
    fi
    work=$HB_HOME/apt
    mkdir -p "$work/state/lists/partial" "$work/cache/archives/partial" "$work/debs" "$HB_HOME/root" "$HB_HOME/lib"
    : >"$work/status"
    # an apt of its own: its state and its second architecture stay here, the machine's are not touched
    cat >"$work/apt.conf" <<CONF
Dir::State "$work/state";
Dir::State::status "$work/status";
Dir::Cache "$work/cache";
APT::Architecture "arm64";
APT::Architectures { "arm64"; "amd64"; };
APT::Sandbox::User "root";
CONF
    APT_CONFIG=$work/apt.conf
    export APT_CONFIG
    apt-get -qq update
    v=$(apt-cache show rustc-web:arm64 | sed -n 's/^Version: //p' | head -n 1) # the candidate
    short=$(printf %s "$v" | cut -d. -f1,2)
    llvm=$(apt-cache depends "libstd-rust-web-$short:arm64" | sed -n 's/.*Depends: \(libllvm[0-9]*\).*/\1/p')
    (cd "$work/debs" && apt-get -qq download "rustc-web:arm64=$v" "libstd-rust-web-$short:arm64=$v" \
        "libstd-rust-web-dev:arm64=$v" "libstd-rust-web-dev:amd64=$v" "$llvm:arm64")
    for d in "$work"/debs/*.deb; do dpkg -x "$d" "$HB_HOME/root"; done
    if LD_LIBRARY_PATH=$HB_HOME/root/usr/lib/aarch64-linux-gnu ldd "$HB_HOME/root/usr/bin/rustc" | grep -q 'not found'; then
        # what LLVM's library needs and this machine lacks
        (cd "$work/debs" && for p in libedit2 libffi8 libz3-4 libxml2 libicu72 libbsd0 libmd0 libzstd1 zlib1g liblzma5 libtinfo6 libstdc++6; do
            apt-get -qq download "$p:arm64"
        done)
        for d in "$work"/debs/*.deb; do dpkg -x "$d" "$HB_HOME/root"; done
    fi
    rm -rf "$work"
    # the linker: the kit's clang over the kit's C library; libpthread and the like are empty since glibc 2.34
    for l in pthread dl rt util; do "$tc/bin/llvm-ar" rc "$HB_HOME/lib/lib$l.a"; done
    k=$KIT/toolchain/lib
    for l in c m gcc_s; do
        more=
        [ $l != c ] || more="$k/libc_nonshared.a AS_NEEDED ( $k/ld-linux-x86-64.so.2 )"
        echo "GROUP ( $(ls "$k"/lib$l.so.*) $more )" >"$HB_HOME/lib/lib$l.so"
    done
    # Rust's start-up asks glibc for the main thread's stack, glibc reads /proc/self/maps, and at that the kit's qemu crashes; a failing
    # answer of our own makes Rust go without its stack-overflow message
    echo 'int pthread_getattr_np(unsigned long t, void *a) { return 38; }' |
        "$tc/bin/clang" --target=$T -O2 -fPIC -x c -c -o "$HB_HOME/lib/nomaps.o" -
    for w in rustc rustdoc; do
        printf '#!/bin/sh\nr=%s\nLD_LIBRARY_PATH=$r/usr/lib/aarch64-linux-gnu:$r/lib/aarch64-linux-gnu exec $r/usr/bin/%s "$@"\n' \
            "$HB_HOME/root" $w >"$HB_HOME/$w"
        chmod +x "$HB_HOME/$w"
    done
    printf '#!/bin/sh\nexec %s --target=%s -fuse-ld=lld -nostartfiles %s %s %s %s -L%s "$@" %s %s\n' "$tc/bin/clang" $T \
        "$k/Scrt1.o" "$k/crti.o" "$k/crtbeginS.o" "$HB_HOME/lib/nomaps.o" "$HB_HOME/lib" "$k/crtendS.o" "$k/crtn.o" >"$HB_HOME/cc"
    chmod +x "$HB_HOME/cc"
}

# pivotfern/build.rs would have to be linked for aarch64, which may have no linker: this finds the archives in its place, in the same folder. It
# links both always, since it is not told whether the feature `compare` is on.
archives() {
    lib=$(cd "$here" && cd "${PIVOTFERN_LIB:-../target/staticlib}" 2>/dev/null && pwd -P) || lib=
    for n in edge edge_compare; do
        [ -f "$lib/lib$n.a" ] && continue
        echo "lib$n.a is not in ${PIVOTFERN_LIB:-target/staticlib}." >&2
        echo "Write it with host/archives.sh $n in the repository, or name its folder in PIVOTFERN_LIB." >&2
        exit 1
    done
    # a changed archive is a changed build
    sum=$(cat "$lib/libedge.a" "$lib/libedge_compare.a" | sha256sum | cut -d' ' -f1)
}

case $verb in
setup)
    setup
    "$HB_HOME/rustc" --version
    ;;
rustc)
    setup
    exec "$HB_HOME/rustc" --target $T -C linker="$HB_HOME/cc" "$@"
    ;;
cargo)
    setup
    archives
    cd "$here"
    RUSTC=$HB_HOME/rustc RUSTDOC=$HB_HOME/rustdoc CARGO_BUILD_TARGET=$T CARGO_TARGET_X86_64_UNKNOWN_LINUX_GNU_LINKER=$HB_HOME/cc \
        CARGO_TARGET_X86_64_UNKNOWN_LINUX_GNU_RUNNER="$here/build.sh run" \
        exec cargo --config "target.$T.pivotfern.rustc-link-search=['native=$lib']" \
        --config "target.$T.pivotfern.rustc-link-lib=['static=edge', 'static=edge_compare']" \
        --config "target.$T.pivotfern.rustc-env.PIVOTFERN_ARCHIVES='$sum'" "$@"
    ;;
run)
    # a backtrace reads /proc/self/maps too
    RUST_BACKTRACE=0 exec "${HB_QEMU:-$tc/bin/qemu-x86_64}" ${HB_QEMU_ARGS:-} \
        "$KIT/toolchain/lib/ld-linux-x86-64.so.2" --library-path "$KIT/toolchain/lib" "$@"
    ;;
*)
    echo "build.sh: no verb $verb" >&2
    exit 2
    ;;
esac
