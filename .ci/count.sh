# Counts suites for .ci/run. A suite is a command whose last line is 'N passed, M failed' and whose exit status is 0 exactly when M is 0.

passed=0
failed=0

# count LOG STATUS: adds the counts of a suite that has printed LOG and ended with STATUS.
# A suite that prints no counts, counts nothing, or whose status and counts disagree, is a failure.
count() {
  local last p f
  last=$(tail -n 1 "$1")
  if [[ $last =~ ^([0-9]+)\ passed,\ ([0-9]+)\ failed$ ]]; then
    p=$((10#${BASH_REMATCH[1]})) f=$((10#${BASH_REMATCH[2]}))
    passed=$((passed + p))
    failed=$((failed + f))
    if [ "$f" -eq 0 ] && { [ "$2" -ne 0 ] || [ "$p" -eq 0 ]; }; then
      failed=$((failed + 1))
    fi
  else
    failed=$((failed + 1))
  fi
}

# suite COMMAND..: runs it, shows what it prints, and adds its counts.
suite() {
  local log status
  log=$(mktemp) || { failed=$((failed + 1)); return; }
  "$@" </dev/null 2>&1 | tee "$log"
  status=${PIPESTATUS[0]}
  count "$log" "$status"
  rm -f "$log"
}

# beside COMMAND..: starts a suite that runs beside what follows, up to `together`.
besides=()
beside() {
  local log
  log=$(mktemp) || { failed=$((failed + 1)); return; }
  "$@" </dev/null >"$log" 2>&1 &
  besides+=("$!:$log")
}

# together: waits for each suite that was started beside, shows what it printed, and adds its counts.
together() {
  local b status
  for b in ${besides[@]+"${besides[@]}"}; do
    wait "${b%%:*}"
    status=$?
    cat "${b#*:}"
    count "${b#*:}" "$status"
    rm -f "${b#*:}"
  done
  besides=()
}

# A lane: suites one after another, as one suite. lane FUNCTION, whose body calls `suite`.
lane() {
  passed=0 failed=0 besides=()
  "$@"
  verdict
}

# The gate's last line and exit status.
verdict() {
  echo "$passed passed, $failed failed"
  [ "$failed" -eq 0 ] && [ "$passed" -gt 0 ]
}
