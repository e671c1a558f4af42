# What the scripts share: --help, counts, the list of crates, levels and builds. Read by them, and not run by itself.
# It sets top, the checkout's folder, and script, the script that reads it.

[ -n "${BASH_VERSION-}" ] || { echo "${0##*/}: it needs bash: run $0 itself, or bash $0" >&2; exit 3; }
# With it cd goes elsewhere, and prints where.
unset CDPATH
top=$(cd "${BASH_SOURCE[0]%/*}/.." && pwd) || exit 3
script=$0
[[ $script == /* ]] || script=$PWD/$script

# The logic that the proofs are for: the end of what rt version prints. The kit's name may be another.
logic=dac8208d650f15bf

say() { echo "${script##*/}: $*" >&2; }

# Prints the comment at the script's head.
help() { sed -n '1d; /^#/!q; s/^# \{0,1\}//p' "$script"; }

usage() {
  help >&2
  exit 2
}

[ "${1-}" != --help ] || { help; exit; }

# Prints the version of the library and the program, which the header has.
version() {
  awk '/^#define ESCAPE_VERSION_(MAJOR|MINOR|PATCH) / { printf "%s%s", dot, $3; dot = "." } END { print "" }' "$top/c/escape.h"
}

# Prints the number in the shared library's name: with the minor one before version 1, as calls may change till then.
major() { version | sed 's/^\(0\.[0-9]*\|[0-9]*\)\..*/\1/'; }

# What a script of tests counts, and its last line.
passed=0 failed=0 skipped=0
pass() { passed=$((passed + 1)) && echo "passed $1"; }
fail() { failed=$((failed + 1)) && echo "failed $1"; }
skip() { skipped=$((skipped + 1)) && echo "skipped $1"; }

# prints NAME WANTED COMMAND..: counts whether the command ends well and prints what is wanted.
prints() {
  local output
  output=$("${@:3}" 2>&1) && [ "$output" = "$2" ] && pass "$1" && return
  fail "$1"
  printf '  it printed %s\n' "$output"
}

# run COMMAND..: runs it, and keeps its status, and in the room what it writes and what it says on standard error.
run() {
  "$@" >"$room/out" 2>"$room/said"
  status=$?
}

# leaves NAME STATUS OUTPUT MESSAGE: counts whether the last run left just these.
leaves() {
  if [ "$status" = "$2" ] && [ "$(cat "$room/out")" = "$3" ] && [ "$(cat "$room/said")" = "$4" ]; then
    pass "$1"
  else
    fail "$1: status $status, wanted $2; it left: $(head -c 200 "$room/out" "$room/said")"
  fi
}

# Prints the counts, and fails where something failed.
summary() {
  if [ "$skipped" = 0 ]; then
    echo "$passed passed, $failed failed"
  else
    echo "$passed passed, $failed failed, $skipped skipped"
  fi
  [ "$failed" = 0 ]
}

# add_counts FILE: adds the counts of the last line that has some, and fails where none has.
add_counts() {
  local counts='([0-9]+) passed[,;] ([0-9]+) failed(, ([0-9]+) skipped)?'
  [[ $(grep -E "$counts" "$1" | tail -n 1) =~ $counts ]] || return 1
  passed=$((passed + BASH_REMATCH[1]))
  failed=$((failed + BASH_REMATCH[2]))
  skipped=$((skipped + ${BASH_REMATCH[4]:-0}))
}

# Sets room to a new folder, which is removed at the end.
make_room() {
  room=$(mktemp -d) || exit 3
  trap 'rm -rf "$room"' EXIT
}

# has COMMAND: whether it is there. It may have words behind it, as $CC may.
has() { command -v "${1%% *}" >/dev/null; }

# makes_wheels PYTHON: whether it is there with its headers, and a C compiler.
makes_wheels() {
  has "$(compiler_for C x86-64-v2)" &&
    "$1" -c 'import os, sysconfig; os.stat(sysconfig.get_path("include") + "/Python.h")' 2>/dev/null
}

# test_package NAME PYTHON FOLDER WHAT EXAMPLE: installs a wheel, or a package's folder, by pip into the folder alone, with
# what is on this machine, and runs the example there. Fails where it isn't installed.
test_package() {
  local installer=("$2" -m pip) user=(env PYTHONPATH="$3" PYTHONUTF8=1 PYTHONDONTWRITEBYTECODE=1 "$2")
  "${installer[@]}" --version >/dev/null 2>&1 || { skip "$1: there is no pip"; return 1; }
  PIP_NO_INDEX=1 PIP_DISABLE_PIP_VERSION_CHECK=1 PIP_ROOT_USER_ACTION=ignore PYTHONDONTWRITEBYTECODE=1 \
    "${installer[@]}" install --quiet --no-build-isolation --no-deps --target "$3" "$4" || { fail "$1: installing"; return 1; }
  prints "$1: its version" "$(version)" "${user[@]}" -c 'import escape_simd; print(escape_simd.__version__)'
  prints "$1: the example" "$(printf '%s\n' '"<é>"' '&lt;é&gt;' '"\u003cé\u003e"')" "${user[@]}" "$5" '<é>'
}

# set_crates [NAMES]: sets crates to these crates and those that they stand on, or to all, lowest first. It starts no
# process.
set_crates() {
  local lines line name number wanted=" ${1-} "
  crates=()
  mapfile -t lines <"$top/crates.txt"
  for ((number = ${#lines[@]} - 1; number >= 0; number--)); do
    line=${lines[number]%%#*}
    name=${line%%[: ]*}
    [ -n "$name" ] || continue
    if [ $# = 0 ] || [[ $wanted == *" $name "* ]]; then
      crates=("$name" "${crates[@]}")
      wanted+="${line#*:} "
    fi
  done
}

# Whether the crate is a program; and whether it is a library for other crates.
is_program() { [ -e "$top/crates/$1/src/main.rt" ]; }
is_library() { ! is_program "$1" && ! grep -q "^$1 staticlib" "$top/crates.txt"; }

# Sets level: to $ESCAPE_LEVEL if that is set; else to the highest level that a program here is built for,
# x86-64-v3 where the processor has all of it, else x86-64-v2. It starts no process.
set_level() {
  local name flags= feature
  level=${ESCAPE_LEVEL:-x86-64-v2}
  case ${ESCAPE_LEVEL:-} in
    '') ;;
    x86-64-v2 | x86-64-v3) return ;;
    *)
      echo "${0##*/}: ESCAPE_LEVEL is $ESCAPE_LEVEL, and neither x86-64-v2 nor x86-64-v3" >&2
      return 1
      ;;
  esac
  [ -r /proc/cpuinfo ] || return 0
  while read -r name flags; do
    [ "$name" != flags ] || break
  done </proc/cpuinfo
  for feature in avx2 bmi1 bmi2 f16c fma abm movbe; do
    [[ " $flags " == *" $feature "* ]] || return 0
  done
  level=x86-64-v3
}

# compiler_for LANGUAGE LEVEL: prints the compiler of C or C++ that builds and links for the level.
compiler_for() {
  case $1:$2 in
    C:aarch64) echo "${AARCH64_CC:-aarch64-linux-gnu-gcc}" ;;
    C++:aarch64) echo "${AARCH64_CXX:-aarch64-linux-gnu-g++}" ;;
    C:*) echo "${CC:-cc}" ;;
    C++:*) echo "${CXX:-c++}" ;;
  esac
}

# link_shared COMPILER LIBRARY SONAME FILE: links the static library to a shared one. It needs no library but
# C's, of which some levels call memset. A file that is in use is replaced, and not written over.
link_shared() {
  $1 -shared -Wl,-soname,"$3" -Wl,--no-undefined -o "$4.new" \
    -Wl,--whole-archive "$2" -Wl,--no-whole-archive &&
    mv -f "$4.new" "$4"
}

# Whether there is an rt. Where its logic is another than that of the proofs, this says so.
find_rt() {
  local found
  has rt || { say "there is no rt on the PATH: proving and building need Rattle's toolchain"; return 1; }
  found=$(rt version)
  [ "${found##* }" = "$logic" ] ||
    say "the proofs are for Rattle's logic $logic, and rt version prints: $found. They may fail here"
}

# lock NEED: waits until no other call builds, and says what is needed where that can't be written. Closing the file 9
# ends it.
lock() {
  if ! { mkdir -p "$top/.build" && true >>"$top/.build/lock"; } 2>/dev/null; then
    say "$1, and it can't write there"
    return 1
  fi
  exec 9>>"$top/.build/lock"
  flock -n 9 && return
  say "waiting for the build that another call began"
  flock 9
}

# Prints how many proofs may run side by side: one for each processor, and for each 3 GB of free memory.
side_by_side() { awk -v n="$(nproc)" '/^MemAvail/ { n = int($2 / 3e6) < n ? int($2 / 3e6) : n } END { print n < 1 ? 1 : n }' /proc/meminfo; }

# Prints how many jobs the proof of a crate gets that runs alone: two for the longest, if there is room. Each job proves
# again what they share, so others gain little by a second.
jobs_for() {
  if [ "$1" = escape_simd ] && [ "$(side_by_side)" -gt 1 ]; then echo 2; else echo 1; fi
}

# Proves and builds a library for other crates.
prove_library() { (cd "$top/crates/$1" && rt lib --jobs "$(jobs_for "$1")"); }

# is_fresh BUILD CRATE..: whether the build is there, and no source of the crates is newer. Folders count, for files that
# were removed. Some crates lack one.
is_fresh() {
  local crates=("${@:2}") newer
  crates=("${crates[@]/#/"$top/crates/"}")
  newer=$(find "$top/crates.txt" "${crates[@]/%//src}" "${crates[@]/%//specs}" "${crates[@]/%//proofs}" -newer "$1" -print -quit 2>/dev/null)
  [ -e "$1" ] && [ -z "$newer" ]
}

# build CRATE LEVEL: proves and builds a program, a static library or another library's tests, unless that was done since
# the last edit of a source, and sets built to its file. Says on standard error how far it is, and what disk was taken. What an interrupted
# call has proved is kept.
build() {
  local crates status=0
  built=$top/.build/$1-$2
  set_crates "$1"
  is_fresh "$built" "${crates[@]}" && return
  find_rt && lock "it has to prove and build first, which writes to $top/.build and to $top/crates/*/out" || return
  # Another call may have built it meanwhile.
  is_fresh "$built" "${crates[@]}" || build_anew "$1" "$2" || status=$?
  # The lock isn't kept while the program runs.
  exec 9>&-
  return "$status"
}

# The build gets the time at which it began, so that a later edit outdates it.
build_anew() {
  local log=$top/.build/$1-$2.log began=$top/.build/$1-$2.began made=$top/crates/$1/out started=$SECONDS words=(--cpu "$2") crate
  [ "$2" != aarch64 ] || words=(--target aarch64-unknown-linux-gnu)
  words+=(--jobs "$(jobs_for "$1")")
  if is_program "$1"; then
    words=(run "${words[@]}") made+=/$1
  elif is_library "$1"; then
    words=(test "${words[@]}") made+=/$1_tests
  else
    words=(lib "${words[@]}") made+=/lib$1.a
  fi
  say "proving and building $1 for $2, once. It writes to crates/*/out and .build, and the log is $log"
  touch "$began" && rm -f "$made" || return
  {
    for crate in "${crates[@]}"; do [ "$crate" = "$1" ] || prove_library "$crate" || exit; done
    # Programs and tests are run when they are built. What they do there is nothing to the build.
    cd "$top/crates/$1" && rt "${words[@]}"
  } </dev/null 2>&1 | tee "$log" | tell_progress "$started"
  if [ ! -e "$made" ]; then
    { grep ' error: \|: not proved$' "$log" || tail -n 5 "$log"; } | head -n 5 >&2
    say "$1 was not built: $log says why"
    return 1
  fi
  cp "$made" "$built.new" && touch -r "$began" "$built.new" && mv -f "$built.new" "$built" || return
  say "built in $((SECONDS - started)) seconds. crates/*/out and .build take $(du -ch "$top"/crates/*/out "$top/.build" | sed -n '$s/[[:space:]].*//p')"
}

# tell_progress STARTED: reads what rt prints, and says on standard error how many functions of a crate are proved, which
# crate was checked, and how many seconds passed.
tell_progress() {
  local line far='so far: ([0-9]+ of [0-9]+ functions)' checked='^crate ([a-z_]+): '
  while IFS= read -r line; do
    [[ ! $line =~ $far ]] || say "${BASH_REMATCH[1]}, $((SECONDS - $1)) seconds"
    [[ ! $line =~ $checked ]] || say "${BASH_REMATCH[1]} is checked, $((SECONDS - $1)) seconds"
  done
}
