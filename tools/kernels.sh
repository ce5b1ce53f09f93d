#!/usr/bin/env bash
# kernels.sh FOLDER [MACHINE..]: Debian's kernels of other machines, by default arm64, s390x (whose
# numbers are big-endian), armhf and i386 (of 32 bits), and two modules of arm64 and s390x. The types
# that the built program (or PAHOLE) stores are those of the tool pahole (or of one whose path is
# PEER) by tools/agree.py, and bpftool reads each table, a module's over its kernel's, too. A module
# of s390x is refused by error 17, since its relocations are not read; what the linker of that
# machine makes of it is read. No check runs this: it downloads 0.4 to 0.8 GB for each machine from
# Debian's archive. What it unpacks stays in FOLDER, and a later run takes that.
set -u
export LC_ALL=C PATH=$PATH:/usr/sbin:/sbin
. "$(dirname "$0")/../checks/lib/program.sh"

need kernels python3 apt-get dpkg-deb bpftool "${PEER:-pahole}"
folder=$(mkdir -p "${1:?FOLDER}" && cd "$1" && pwd) || exit 2
shift
declare -A image=([arm64]=arm64 [s390x]=s390x [armhf]=armmp [i386]=686-pae)
declare -A modules=([arm64]="xfs bridge" [s390x]="xfs bridge")
# the machines whose objects are not read, with their number in ELF (e_machine), and their linkers
declare -A refused=([s390x]=22) linker=([s390x]=s390x-linux-gnu-ld)

# apt has lists of its own in FOLDER/apt, for all these machines: the system's stay as they are
apt_lists() {
  mkdir -p "$folder/apt/lists/partial" "$folder/apt/cache/archives/partial"
  cat >"$folder/apt/apt.conf" <<CONF
Dir::State::lists "$folder/apt/lists"; Dir::State::status "/dev/null";
Dir::Cache "$folder/apt/cache"; APT::Sandbox::User "root";
APT::Architectures { $(printf '"%s"; ' "${!image[@]}") };
CONF
  export APT_CONFIG=$folder/apt/apt.conf
  apt-get update
}

# The kernel of a machine and its modules, from Debian's package of debugging information.
unpack() {
  local machine=$1 package one names=('./usr/lib/debug/boot/vmlinux-*')
  for one in ${modules[$machine]:-}; do names+=("*/$one.ko"); done
  package=$(apt-cache depends "linux-image-${image[$machine]}-dbg:$machine" |
    sed -n 's/^ *Depends: *//p' | head -n 1)
  mkdir -p "$folder/$machine.part" && cd "$folder/$machine.part" &&
    apt-get download "$package" &&
    dpkg-deb --fsys-tarfile ./*.deb |
    tar -xf - --wildcards --transform='s,.*/,,' "${names[@]}" &&
    rm ./*.deb && mv "$folder/$machine.part" "$folder/$machine"
}

# bpftool reads the table of a file, with `-B BASE` over that of another one.
is_read() {
  local name=$1 table=$2 count
  shift 2
  if count=$(bpftool "$@" btf dump file "$table" | grep -c '^\[') && [ "$count" -gt 0 ]; then
    echo "passed kernels $name: bpftool reads $count types"
  else
    echo "failed kernels $name: bpftool does not read its table"
  fi
}

# A module of a machine whose objects are not read ends with error 17, and stores nothing.
is_refused() {
  local name=$1 module=$2 number=$3 complaint
  rm -f "$scratch/alone"
  complaint=$("$program" --btf_encode_detached="$scratch/alone" "$module" 2>&1)
  if [ $? = 1 ] && [ "$complaint" = "pahole: $module: image 18: error 17 $number" ] &&
    [ ! -e "$scratch/alone" ]; then
    echo "passed kernels $name: refused by error 17"
  else
    echo "failed kernels $name: it is not refused by error 17, but: $complaint"
  fi
}

# The modules of a machine as files that the program reads: linked, where it must be.
readable() {
  local machine=$1 module linked
  for module in "$folder/$machine"/*.ko; do
    if [ -z "${refused[$machine]:-}" ]; then
      modules_of+=("$module")
      continue
    fi
    is_refused "$machine ${module##*/}" "$module" "${refused[$machine]}"
    linked=$scratch/${module##*/}
    if "${linker[$machine]}" -e 0 --unresolved-symbols=ignore-all -o "$linked" "$module"; then
      modules_of+=("$linked")
    else
      echo "skipped kernels $machine ${module##*/}: ${linker[$machine]} does not link it"
    fi
  done
}

# The tables of a machine's kernel and of its modules, alone and over the kernel's.
compare() {
  local machine=$1 kernel module name modules_of=()
  kernel=$(compgen -G "$folder/$machine/vmlinux-*") || return
  readable "$machine"
  python3 -B "$root/tools/agree.py" "$program" "$kernel" "${modules_of[@]}"
  "$program" -j4 --btf_encode_detached="$scratch/kernel" "$kernel" || return
  is_read "${kernel##*/}" "$scratch/kernel"
  for module in "${modules_of[@]}"; do
    name="$machine ${module##*/}"
    "$program" --btf_encode_detached="$scratch/alone" "$module" &&
      is_read "$name" "$scratch/alone"
    "$program" --btf_encode_detached="$scratch/over" --btf_base="$scratch/kernel" "$module" &&
      is_read "$name over the kernel" "$scratch/over" -B "$scratch/kernel"
  done
}

scratch=$(mktemp -d) || exit 2
trap 'rm -rf "$scratch"' EXIT
shopt -s nullglob
[ $# != 0 ] || set -- arm64 s390x armhf i386
for machine; do
  [ -d "$folder/$machine" ] || (apt_lists && unpack "$machine") >>"$folder/log" 2>&1
  if [ -d "$folder/$machine" ]; then
    compare "$machine"
  else
    echo "skipped kernels $machine: see $folder/log"
  fi
done
