# What it takes on this machine to run Rattle's programs, and to compile and run what calls the library: both are for
# x86-64. On an x86-64 machine it takes nothing. On Arm an emulator runs them, and compilers for x86-64 stand in for the
# machine's own. No test itself: it is sourced.

on_arm() { [ "$(uname -m)" = aarch64 ]; }

# emulation: the array emulator, the words that stand before one of Rattle's programs; none on x86-64. On Arm they are
# the kit's emulator and C library, as rt itself runs programs. The status is 1 without rt, which says where the kit is.
emulation() {
  local kit
  emulator=()
  on_arm || return 0
  kit=$(rt doc 2>/dev/null </dev/null) || return 1
  kit=${kit%/*}/on/aarch64/toolchain
  emulator=("$kit/bin/qemu-x86_64" "$kit/lib/ld-linux-x86-64.so.2" --library-path "$kit/lib")
}

# callers: for what calls the library, the C and C++ compilers cc and cxx, and the array caller, the words that stand
# before a program that they made; below cargo's target folder, the folder release has what cargo made. The array
# emulator is set too, and the status is emulation's. On Arm the emulator of the package qemu-user runs callers: the
# kit's fails where a Rust program, as it starts, reads /proc/self/maps.
callers() {
  local libraries=/usr/x86_64-linux-gnu/lib
  cc=gcc cxx=g++ caller=() release=release
  emulation || return
  on_arm || return 0
  cc=x86_64-linux-gnu-gcc cxx=x86_64-linux-gnu-g++ release=x86_64-unknown-linux-gnu/release
  caller=(qemu-x86_64 "$libraries/ld-linux-x86-64.so.2" --library-path "$libraries")
  rust_for_x86_64 || :
}

# rust_for_x86_64: on Arm, the first rustc on the path that has the library for x86-64 comes first from now on, with the
# cargo beside it. The status is 1 if there is none.
rust_for_x86_64() {
  local rustc
  on_arm || return 0
  while read -r rustc; do
    if [ -d "$("$rustc" --print target-libdir --target x86_64-unknown-linux-gnu 2>/dev/null)" ]; then
      PATH=${rustc%/*}:$PATH
      return 0
    fi
  done < <(type -aP rustc)
  return 1
}

# for_x86_64 COMMAND ..: a command that calls cargo, which compiles for x86-64 and runs what it compiled
for_x86_64() {
  on_arm || { "$@"; return; }
  CARGO_BUILD_TARGET=x86_64-unknown-linux-gnu CARGO_TARGET_X86_64_UNKNOWN_LINUX_GNU_LINKER=$cc \
    CARGO_TARGET_X86_64_UNKNOWN_LINUX_GNU_RUNNER=${caller[*]} "$@"
}
