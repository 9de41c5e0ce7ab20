# How a program over the static library is built and run, on x86-64 and on Arm. ./harness and ./bench read this file.
# The library is for x86-64; on Arm its programs are built for x86-64 too, and run under an emulator.
out=target/bindings
mkdir -p "$out"

# Debian's packages for Arm, by name: a compiler of each language for x86-64, its libraries, and the emulator. What apt says
# goes to standard error: standard output is the program's alone.
install_for_arm() {
    local packages="rustc libstd-rust-dev:amd64 libc6:amd64 libc6-dev-amd64-cross gcc-x86-64-linux-gnu qemu-user-static"
    if dpkg -s $packages >/dev/null 2>&1; then return; fi
    dpkg --add-architecture amd64
    apt-get update >&2
    DEBIAN_FRONTEND=noninteractive apt-get install -y --no-install-recommends $packages >&2
}

case "$(uname -m)" in
x86_64)
    c_compiler=(cc)
    rust_compiler=(rustc)
    runner=()
    machine="$(sed -n 's/^model name[^:]*: //p' /proc/cpuinfo | head -n 1)"
    ;;
aarch64)
    install_for_arm
    c_compiler=(x86_64-linux-gnu-gcc)
    # Debian's rustc: it finds the x86-64 library that is installed beside it.
    rust_compiler=("$(dpkg -L rustc | grep '/bin/rustc$')" --target x86_64-unknown-linux-gnu -C linker=x86_64-linux-gnu-gcc)
    runner=(qemu-x86_64-static)
    machine="an emulator of x86-64 on Arm, so a hint only"
    ;;
*)
    echo "no way to run x86-64 programs on $(uname -m)" >&2
    exit 2
    ;;
esac

# The static library, proved, and the safe wrapper over it.
build_library() {
    (cd crates/chorvadhim_c && rt lib) >"$out/library.log" || { cat "$out/library.log"; exit 1; }
    cp crates/chorvadhim_c/out/libchorvadhim_c.a "$out/libchorvadhim.a"
    "${rust_compiler[@]}" --edition 2021 -C opt-level=3 --crate-type rlib -L "native=$out" \
        bindings/chorvadhim.rs -o "$out/libchorvadhim.rlib"
}

# A Rust program over the wrapper, as a release build.
build_rust() {
    "${rust_compiler[@]}" --edition 2021 -C opt-level=3 --extern chorvadhim="$out/libchorvadhim.rlib" \
        "bindings/$1.rs" -o "$out/$1"
}

# A C program over the header.
build_c() {
    "${c_compiler[@]}" -std=c99 -pedantic -O2 -Wall -Wextra -Werror -Ibindings \
        "bindings/$1.c" "$out/libchorvadhim.a" -o "$out/$1"
}

run() {
    local program="$1"
    shift
    "${runner[@]}" "$out/$program" "$@"
}
