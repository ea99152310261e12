# What is built of the crates, and when it is built anew. No test itself: it is sourced, and its functions are called in
# the repository's folder.

# stale FILE: it isn't there, or something in crates/, crates.txt or this file is newer. What rt keeps of a crate stands
# in its folder out/, and is no source; making it touches the crate's own folder.
stale() {
  [ ! -f "$1" ] || [ -n "$(find crates crates.txt tests/build.sh -name out -prune -o \
    \( -type f -o -path 'crates/*/*' -o -path crates \) -newer "$1" -print -quit)" ]
}

# What the programs and libraries are compiled for: every x86-64 processor. By itself rt compiles for those with SSE4.2.
processor=x86-64

# built_program NAME: target/bin/NAME, proved and built if it is stale. rt builds a program where it runs it, so it is
# run for its help.
built_program() {
  local program=target/bin/$1
  stale "$program" || return 0
  rm -f "$program"
  (cd "crates/$1" && rt run --cpu "$processor" -- --help >&2 </dev/null) &&
    mkdir -p target/bin && cp "crates/$1/out/$1" "$program"
}

# The libraries that a monitor links: the board's functions, the mill's, the salvage's, and the plain engine's.
libraries=(nataqvoju nataqvoju_mill nataqvoju_salvage nataqvoju_plain)

# archive_of NAME: the path of a library
archive_of() { echo "target/staticlib/lib$1.a"; }

# built_library NAME: the library, proved and built if it is stale
built_library() {
  local archive
  archive=$(archive_of "$1")
  stale "$archive" || return 0
  rm -f "$archive"
  (cd "crates/$1" && rt lib --cpu "$processor") &&
    mkdir -p target/staticlib && cp "crates/$1/out/lib$1.a" "$archive"
}
