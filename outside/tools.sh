# Sourced by run, soak and bench: sets what to compile and to run with, and builds under
# target/outside. The static library is x86-64. What is said of Arm below is of the older kit, which ran
# there: all that links the library was cross-compiled with Debian's rustc and gcc and ran under Debian's
# emulator. Today's kit is for x86-64 alone.

out=target/outside
mkdir -p "$out"

as_root() {
    if [ "$(id -u)" -eq 0 ]; then "$@"; else sudo "$@"; fi
}

# install PACKAGE...: those that dpkg does not know as installed.
install() {
    missing=
    for package in "$@"; do
        dpkg-query -W -f '${Status}' "$package" 2>/dev/null | grep -q 'ok installed' || missing="$missing $package"
    done
    [ -n "$missing" ] || return 0
    echo "outside: installing$missing"
    as_root apt-get update -qq
    # shellcheck disable=SC2086
    as_root env DEBIAN_FRONTEND=noninteractive apt-get install -y -qq --no-install-recommends $missing >"$out/apt.log" 2>&1 || {
        tail -n 20 "$out/apt.log"
        return 1
    }
}

machine=$(uname -m)
case "$machine" in
x86_64)
    command -v gcc >/dev/null || install gcc libc6-dev
    command -v rustc >/dev/null || install rustc
    rustc=rustc
    rust_flags=
    cc=gcc
    emulator=
    ;;
aarch64)
    dpkg --print-foreign-architectures | grep -qx amd64 || as_root dpkg --add-architecture amd64
    install gcc-x86-64-linux-gnu libc6-dev:amd64 rustc libstd-rust-dev:amd64 qemu-user
    rustc=$(dpkg -L rustc | grep '/bin/rustc$')
    rust_flags='--target x86_64-unknown-linux-gnu -C linker=x86_64-linux-gnu-gcc -C target-feature=+crt-static'
    cc='x86_64-linux-gnu-gcc -static'
    emulator=qemu-x86_64
    ;;
*)
    echo "outside: no way known to run x86-64 programs on $machine" >&2
    exit 2
    ;;
esac

# The proved static library, $archive/libexports.a.
archive=crates/exports/out
library() {
    (cd crates/exports && rt lib) >"$out/staticlib.log" 2>&1 || {
        cat "$out/staticlib.log"
        return 1
    }
}

# The Rust side as one library.
rust_side() {
    # shellcheck disable=SC2086
    $rustc --edition 2021 -C opt-level=3 $rust_flags --crate-type rlib --crate-name outside outside/src/lib.rs --out-dir "$out"
}

# rust_program NAME: a program of src/bin, over the Rust side and the static library.
rust_program() {
    # shellcheck disable=SC2086
    $rustc --edition 2021 -C opt-level=3 $rust_flags --cfg library --extern "outside=$out/liboutside.rlib" \
        -L "native=$archive" "outside/src/bin/$1.rs" -o "$out/$1"
}

c_program() {
    # shellcheck disable=SC2086
    $cc -std=c11 -O2 -Wall -Wextra -Werror outside/c/calls.c "$archive/libexports.a" -o "$out/calls"
}
