#!/usr/bin/env bash
# real-programs.sh FOLDER: builds programs that users have, of Debian's source packages, with `gcc
# -g -O2` in FOLDER (or with CC and CFLAGS), and prints the path of each: sqlite3, redis, busybox,
# git and postgres. The largest objects of each, at most 100, or OBJECTS=n, lie beside it in
# PROGRAM.o.d. PROGRAMS='a b' builds these alone, and JOBS=n has n compilers at work. SOURCES names
# a folder for the source packages, so that FOLDERs of several compilers share them. Needs Debian's
# archive, and the headers of zlib for git. What can't be had or built is skipped by name.
set -u
export LC_ALL=C
folder=$(mkdir -p "${1:?FOLDER}" && cd "$1" && pwd) || exit 2
sources=${SOURCES:-$folder/packages}
sources=$(mkdir -p "$sources" && cd "$sources" && pwd) || exit 2
cc=${CC:-gcc} flags=${CFLAGS:--g -O2} jobs=${JOBS:-$(nproc)}
mkdir -p "$sources/lists" "$folder/src"
echo "deb-src http://deb.debian.org/debian bookworm main" >"$sources/sources.list"
apt=(apt-get -o Dir::Etc::sourcelist="$sources/sources.list" -o Dir::Etc::sourceparts=-
  -o Dir::State::lists="$sources/lists")

# the source package's files, if they aren't there yet
download() {
  cd "$sources" || return 1
  compgen -G "$1_*.dsc" >/dev/null && return
  "${apt[@]}" update && "${apt[@]}" source --download-only "$1"
}

# the package's folder, of its sources with Debian's patches
unpack() {
  download "$1" && cd "$folder/src" || return 1
  compgen -G "$1-*/" >/dev/null || dpkg-source --extract "$sources/$1"_*.dsc || return 1
  cd "$(compgen -G "$1-*/" | head -n 1)" || return 1
}

sqlite3() {
  built=sqlite3.out
  unpack sqlite3 && ./configure CC="$cc" CFLAGS="$flags" --disable-tcl &&
    make -j"$jobs" sqlite3.c shell.c && "$cc" ${flags} -c shell.c sqlite3.c &&
    "$cc" -o sqlite3.out shell.o sqlite3.o -lpthread -ldl -lm
}

redis() {
  built=src/redis-server
  unpack redis &&
    make -j"$jobs" -C src CC="$cc" CFLAGS="$flags" OPTIMIZATION= MALLOC=libc redis-server
}

busybox() {
  built=busybox_unstripped
  unpack busybox && make CC="$cc" defconfig &&
    sed -i 's/^CONFIG_TC=y/# CONFIG_TC is not set/' .config &&
    make -j"$jobs" CC="$cc" CFLAGS="$flags" SKIP_STRIP=y
}

git() {
  built=git
  unpack git && make -j"$jobs" CC="$cc" CFLAGS="$flags" NO_CURL=1 NO_EXPAT=1 NO_GETTEXT=1 \
    NO_OPENSSL=1 NO_PERL=1 NO_PYTHON=1 NO_TCLTK=1 git
}

postgres() {
  built=src/backend/postgres
  unpack postgresql-15 &&
    ./configure CC="$cc" CFLAGS="$flags" --without-readline --without-zlib --without-icu &&
    make -C src/backend generated-headers && make -j"$jobs" -C src/port libpgport_srv.a &&
    make -j"$jobs" -C src/common libpgcommon_srv.a && make -j"$jobs" -C src/backend
}

# Copies the program, and its largest objects, whose names are their paths with `_` for `/`. Those
# of a build's own tools (scripts/) have no debugging information.
keep() {
  local path
  cp "$built" "$folder/$1" && mkdir -p "$folder/$1.o.d" || return 1
  find . -name '*.o' ! -name 'built-in.o' ! -path './scripts/*' -printf '%s %P\n' | sort -rn |
    head -n "${OBJECTS:-100}" | cut -d' ' -f2- | while read -r path; do
    cp "$path" "$folder/$1.o.d/${path//\//_}"
  done
}

for program in ${PROGRAMS:-sqlite3 redis busybox git postgres}; do
  if ($program && keep "$program") >>"$folder/log" 2>&1; then
    echo "$folder/$program"
  else
    echo "skipped $program: see $folder/log"
  fi
done
