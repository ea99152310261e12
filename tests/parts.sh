# What several tests need. No test itself: it is sourced, from the repository's folder, and not executable.
passed=0 failed=0

. tests/build.sh
. tests/machine.sh
program() { built_program replay; }
archives() {
  local name
  for name in "${libraries[@]}"; do built_library "$name" || return; done
}

# tallied SAID STATUS: the counts of a command that printed SAID and ended with STATUS, as 'N M'. They are those of its
# last line, 'N passed, M failed'. No such line, nothing counted, or a status that does not fit: a failure.
tallied() {
  local n=0 m=1
  if [[ $(tail -n 1 "$1") =~ ^([0-9]+)\ passed,\ ([0-9]+)\ failed$ ]]; then
    n=${BASH_REMATCH[1]} m=${BASH_REMATCH[2]}
    [ "$m" = 0 ] && { [ "$n" = 0 ] || [ "$2" != 0 ]; } && m=1
  fi
  echo "$n $m"
}

# cargo_tallied SAID STATUS: the same for `cargo test`, over all its lines 'test result: ok. N passed; M failed; K ignored'.
# A test that is ignored is a failure.
cargo_tallied() {
  awk -v status="$2" '
    /^test result: / { n += $4; m += $6 + $8; lines++ }
    END { if (m == 0 && (n == 0 || status != 0)) m = 1; print n + 0, m + 0 }' "$1"
}

# check LABEL COMMAND ..: one check. What the command says goes to the file $said, and is shown if it fails.
check() {
  local label=$1
  shift
  if "$@" >"$said" 2>&1; then
    passed=$((passed + 1))
  else
    failed=$((failed + 1))
    echo "FAILED: $label"
    tail -n 40 "$said"
  fi
}

# step LABEL TALLY COMMAND ..: runs a command and adds what TALLY counts. Of its output the last $show lines are shown,
# of a failing one more.
step() {
  local label=$1 tally=$2 began=$SECONDS lines=${show:-0} status n m said
  shift 2
  said=$(mktemp)
  "$@" >"$said" 2>&1
  status=$?
  read -r n m <<<"$("$tally" "$said" "$status")"
  [ "$m" = 0 ] || lines=40
  tail -n "$lines" "$said"
  passed=$((passed + n)) failed=$((failed + m))
  echo "$label: $n passed, $m failed ($((SECONDS - began)) s)"
  rm -f "$said"
}

# ended SAID STATUS: the count of a command that only has to end well
ended() { [ "$2" = 0 ] && echo '1 0' || echo '0 1'; }

# finish: the last line and the status
finish() {
  echo "$passed passed, $failed failed"
  [ "$failed" = 0 ] && [ "$passed" != 0 ]
  exit
}
