# shellcheck shell=bash
# What the script ssh-mux of a clone, an installed ssh-mux and install have in common: which file is
# a proved program, what --version tells of it, and how it is run. They read it; it runs nothing.
#
# A program may have a note beside it, FILE.proved, with a line `KEY VALUE` for each of: version, kit
# and logic (by which it was proved), commit and sources (of what), program (its sum), skipped and gate
# (how many cases of the gate were, and its last line). It counts where its sum is that of the file.

# A number of as many bytes at a place of a file, or nothing where the file ends before.
number_at() { od -A n -t "u$3" -j "$2" -N "$3" -- "$1" 2>/dev/null | tr -d ' '; }

# Whether it is a program of ELF, 64 bits, little-endian, for x86-64.
is_elf() {
  local head=()
  read -r -a head < <(od -A n -v -t u1 -w20 -N 20 -- "$1" 2>/dev/null)
  [ "${head[*]:0:6} ${head[*]:18:2}" = "127 69 76 70 2 1 62 0" ]
}

# The texts of the section .comment of such a program, one a line.
comment_of() {
  local table sections names rows=() row=() texts name_in_hex=2e636f6d6d656e7400
  table=$(number_at "$1" 40 8) sections=$(number_at "$1" 60 2) names=$(number_at "$1" 62 2)
  # A section's row has 64 bytes: at 0 its name, at 24 its place, and at 32 its length.
  mapfile -t rows < <(
    od -A n -v -t u4 -w64 -j "${table:-0}" -N $((64 * ${sections:-0})) -- "$1" 2>/dev/null
  )
  read -r -a row <<<"${rows[${names:-0}]-}"
  [ ${#row[@]} -eq 16 ] || return 0
  texts=$(od -A n -v -t x1 -j "${row[6]}" -N "${row[8]}" -- "$1" 2>/dev/null | tr -d ' \n')
  for row in "${rows[@]}"; do
    read -r -a row <<<"$row"
    [ "${texts:2 * row[0]:${#name_in_hex}}" = "$name_in_hex" ] || continue
    tail -c "+$((row[6] + 1))" -- "$1" | head -c "${row[8]}" | tr '\0' '\n'
  done
}

sum_of_file() { sha256sum <"$1" | cut -d ' ' -f 1; }

# What the note beside a program says of a key; nothing where there is no note, or it is another's.
noted() {
  [ -f "$1.proved" ] && grep -q -x -F "program $(sum_of_file "$1")" -- "$1.proved" || return 0
  sed -n "s/^$2 //p" -- "$1.proved" | head -n 1
}

# The logic by which a program was proved: its .comment tells it, or where that was stripped its note.
logic_of() {
  local logic
  logic=$(comment_of "$1" | sed -n 's/^rattle logic=\([0-9a-f]\{16,\}\)$/\1/p' | head -n 1)
  printf '%s\n' "${logic:-$(noted "$1" logic)}"
}

# Why a file is no proved program; nothing where it is one.
fault_of_program() {
  if [ ! -f "$1" ]; then
    echo "there is no such file"
  elif ! [ -r "$1" ]; then
    echo "it can't be read"
  elif ! is_elf "$1"; then
    echo "it is no program of ELF for x86-64"
  elif [ -z "$(logic_of "$1")" ]; then
    echo "it isn't proved: no logic stands in its section .comment, nor in a note beside it"
  fi
}

# The version that a file VERSION is for: with a third line, which tools/release writes, a release.
version_in() {
  local lines=()
  mapfile -t lines <"$1"
  case ${lines[2]-} in
    released*) printf '%s\n' "${lines[0]}" ;;
    *) printf '%s, unreleased\n' "${lines[0]-}" ;;
  esac
}

# What --version says, by the file VERSION and the program.
tell_version() {
  local version kit logic own
  version=$(version_in "$1") kit=$(sed -n 2p "$1")
  printf 'ssh-mux %s\n' "$version"
  if [ ! -e "$2" ]; then
    printf 'no program is built here; it is to be proved with %s\n' "$kit"
    return
  fi
  own=$(noted "$2" version)
  [ "${own:-$version}" = "$version" ] || printf 'the program is of ssh-mux %s: %s\n' "$own" "$2"
  logic=$(logic_of "$2")
  if [ -z "$logic" ]; then
    printf '%s: %s\n' "$2" "$(fault_of_program "$2")"
  elif [ "${kit##* logic }" = "${logic:0:16}" ]; then
    printf 'proved with %s\n' "$kit"
  else
    printf 'proved with logic %s, and not with %s\n' "${logic:0:16}" "$kit"
  fi
}

# Sets `program` to the one that SSHMUX_PROGRAM names, or says why that is none, and ends.
take_named_program() {
  local fault
  program=$SSHMUX_PROGRAM
  case $program in */*) ;; *) program=./$program ;; esac
  fault=$(fault_of_program "$program")
  [ -n "$fault" ] || [ -x "$program" ] || fault="it can't be run"
  [ -n "$fault" ] || return 0
  echo "ssh-mux: SSHMUX_PROGRAM: $SSHMUX_PROGRAM: $fault" >&2
  exit 255
}

# Runs a program with words. It stays in this process, so its number is the one that clients are to
# see. The user's number is the one that the token %i gives. In a container, or under a timer, nobody
# has set USER.
run_program() {
  local name
  export SSHMUX_PID=$$ SSHMUX_UID=$UID
  if [ -z "${USER+set}" ] && name=$(id -un 2>/dev/null); then
    export USER=$name
  fi
  exec "$@"
}
