# shellcheck shell=bash
# Sourced by the checks: the files *.hex of the cases as bytes.

# Lower-case hex on standard input to bytes on standard output.
unhex() {
  local line
  while IFS= read -r line || [ -n "$line" ]; do
    printf "$(printf '%s' "$line" | sed 's/../\\x&/g')"
  done
}
