# shellcheck shell=bash
# Sourced by the checks and tools.

# need NAME TOOL..: where a tool is missing, says that NAME is skipped, and ends.
need() {
  local name=$1 tool
  shift
  for tool in "$@"; do
    if ! command -v "$tool" >/dev/null; then
      echo "skipped $name: $tool is not installed"
      exit 0
    fi
  done
}
