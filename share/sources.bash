# shellcheck shell=bash
# What the program of a clone is made of. Those who read this have set `top`, the clone, and `crate`,
# the program's crate; list_crates comes first.
# shellcheck disable=SC2154

# The crates that the program stands on and itself, in the order in which rt builds them.
crates=()
list_crates() {
  local line name
  local -A uses=() listed=()
  crates=()
  while IFS= read -r line; do
    line=${line%%#*}
    name=${line%%:*}
    [ "$name" = "$line" ] || uses[$name]=${line#*:}
  done <"$top/crates.txt"
  list_below "$crate"
}
list_below() {
  # A library that crates.txt doesn't list is the kit's.
  [ -n "${uses[$1]+listed}" ] && [ -z "${listed[$1]-}" ] || return 0
  listed[$1]=yes
  local used
  for used in ${uses[$1]}; do
    list_below "$used"
  done
  crates+=("$1")
}

source_folders() {
  local name folder
  for name in "${crates[@]}"; do
    for folder in src specs proofs; do
      [ ! -d "crates/$name/$folder" ] || printf '%s\n' "crates/$name/$folder"
    done
  done
}

# A sum over the names and the contents of all sources: a copy of the repository has the same one,
# whatever its times.
sum_of_sources() (
  cd "$top" || exit 1
  mapfile -t folders < <(source_folders)
  find crates.txt HANDLES "${folders[@]}" -type f -print0 | LC_ALL=C sort -z |
    xargs -0 b2sum -- | b2sum | cut -d ' ' -f 1
)
