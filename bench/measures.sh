# shellcheck shell=bash disable=SC2154
# Measures of commands, for scripts that set `scratch` to a folder of their own and read this file.
TIMEFORMAT='%3R %3U %3S'

# Runs a command, and leaves its peak memory in kilobytes and its status in a file each.
run() {
  /usr/bin/time -q -f %M -o "$scratch/memory" "$@" >/dev/null 2>&1
  echo $? >"$scratch/status"
}

# The same without that program: prints a whole line of measures.
run_without() {
  python3 - "$@" <<'PY'
import resource, subprocess, sys, time
begin = time.monotonic()
status = subprocess.run(sys.argv[1:], stdout=subprocess.DEVNULL, stderr=subprocess.DEVNULL).returncode
seconds, used = time.monotonic() - begin, resource.getrusage(resource.RUSAGE_CHILDREN)
print(f"{seconds:.3f} {used.ru_utime + used.ru_stime:.3f} {used.ru_maxrss} {status}")
PY
}

# Adds a line to a file of measures of a command: its seconds, those of the processor, kilobytes, and the status. Starting it takes some
# milliseconds of both.
measure() {
  local into=$1 real user system
  shift
  if [ ! -x /usr/bin/time ]; then
    run_without "$@" >>"$into"
    return
  fi
  read -r real user system < <({ time run "$@"; } 2>&1)
  echo "$real $(awk "BEGIN { print $user + $system }") $(tail -n 1 "$scratch/memory") $(cat "$scratch/status")" >>"$into"
}

# The least of the measures in a file, each by itself.
least() {
  awk 'NR == 1 { a = $1; b = $2; c = $3 } { if ($1 < a) a = $1; if ($2 < b) b = $2; if ($3 < c) c = $3 } END { print a, b, c, $4 }' "$1"
}

# Two measures and their ratio, as three columns of a table; a measure of 0 is none.
columns() {
  awk -v one="$1" -v two="$2" -v digits="$3" '
    function shown(value) { return value > 0 ? sprintf("%.*f", digits, value) : "-" }
    BEGIN { printf("| %9s %9s %6s ", shown(one), shown(two), (one > 0 && two > 0) ? sprintf("%.1f", one / two) : "-") }'
}
