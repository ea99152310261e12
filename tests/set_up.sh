# What the check needs beside the Rattle kit. No test itself: it is sourced, from the repository's folder.

. tests/machine.sh

missing() { ! command -v "$1" >/dev/null; }

# The lock files need cargo 1.78 or later. On Arm it is 1.89: an older one that compiles for another machine leaves out
# the examples in a documentation, and says nothing.
old_cargo() {
  local version
  version=$(cargo --version 2>/dev/null) || return 0
  [[ $version =~ ^cargo\ 1\.([0-9]+)\. ]] && [ "${BASH_REMATCH[1]}" -lt "$least" ]
}

# look: the packages of what is missing, in the array lacking. On Arm that is an emulator and compilers for x86-64 too,
# and rustc's library for x86-64, which has to be of rustc's own version.
look() {
  local rust=(cargo rustc)
  lacking=()
  ! missing python3 || lacking+=(python3)
  ! missing gcc || lacking+=(gcc libc6-dev)
  ! missing g++ || lacking+=(g++)
  ! missing nm || lacking+=(binutils)
  if on_arm; then
    ! missing qemu-x86_64 || lacking+=(qemu-user)
    ! missing x86_64-linux-gnu-gcc || lacking+=(gcc-x86-64-linux-gnu libc6-dev-amd64-cross)
    ! missing x86_64-linux-gnu-g++ || lacking+=(g++-x86-64-linux-gnu)
    rust+=(libstd-rust-dev:amd64)
  fi
  if ! rust_for_x86_64 || missing cargo || missing rustc || old_cargo; then lacking+=("${rust[@]}"); fi
}

# install: the packages lacking, by apt-get, as root or by a sudo that asks for no password. Where the package cargo is too
# old, a newer one has the name cargo-web. For a package of x86-64 dpkg is told of amd64; that is taken back if apt-get
# then finds no list of such packages.
install() {
  local as=() packages told
  ! missing apt-get || return 1
  if [ "$EUID" != 0 ]; then
    ! missing sudo && sudo -n true 2>/dev/null || return 1
    as=(sudo -n)
  fi
  packages=" ${lacking[*]} "
  if [[ $packages = *:amd64* && $(dpkg --print-foreign-architectures) != *amd64* ]]; then
    "${as[@]}" dpkg --add-architecture amd64 && told=amd64 || return 1
  fi
  if ! "${as[@]}" apt-get update -qq; then
    [ -z "${told-}" ] || "${as[@]}" dpkg --remove-architecture "$told"
    return 1
  fi
  if apt-cache show cargo-web >/dev/null 2>&1; then
    packages=${packages/ cargo rustc / cargo-web rustc-web }
    packages=${packages/ libstd-rust-dev:/ libstd-rust-web-dev:}
  fi
  "${as[@]}" env DEBIAN_FRONTEND=noninteractive apt-get install -y -qq $packages
}

set_up() {
  local lacking least=78
  ! on_arm || least=89
  PATH=$PATH:${HOME-}/.cargo/bin
  if missing rt; then
    echo "check: rt is not on the path: install the Rattle kit, or add its bin to PATH" >&2
    return 1
  fi
  look
  [ "${#lacking[@]}" != 0 ] || return 0
  install >&2
  look
  [ "${#lacking[@]}" != 0 ] || return 0
  echo "check: missing and not installed (cargo and rustc are needed at 1.$least or later): ${lacking[*]}" >&2
  return 1
}
