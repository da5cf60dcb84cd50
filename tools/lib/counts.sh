# What .ci/run and tools/quick compare with tools/data/counts.txt, from the top of the repository on. Each has its own `fail TEXT`.
# shellcheck shell=bash

# The least and the most that tools/data/counts.txt has for a script; nothing if it has no line for it.
bounds() {
  awk -v name="$1" '$1 == name { print $2, (NF > 2 ? $3 : $2) }' tools/data/counts.txt
}

# Fails if a script counts less than it must; says so if it counts more.
compare() {
  local bounds
  bounds=$(bounds "$1")
  if [[ ! $bounds =~ ^([0-9]+)\ ([0-9]+)$ ]]; then
    fail "tools/data/counts.txt has not one line for $1"
  elif [ "$2" -lt "${BASH_REMATCH[1]}" ]; then
    fail "$1 counts $2, and must count at least ${BASH_REMATCH[1]}"
  elif [ "$2" -gt "${BASH_REMATCH[2]}" ]; then
    echo "raise $1 to $2 in tools/data/counts.txt"
  fi
}
