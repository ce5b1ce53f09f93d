# shellcheck shell=bash
# Sourced by what needs the toolchain: where there is no `rt`, says so and ends.
if ! command -v rt >/dev/null; then
  echo "the Rattle toolchain is missing: no command rt in $PATH" >&2
  exit 1
fi
