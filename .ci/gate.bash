# shellcheck shell=bash
# What a gate that passed leaves for tools/release, in .ci/out/passed, which git doesn't track: a line
# `KEY VALUE` for each of commit, sources and program (sums), kit, skipped (how many cases and checks
# were), and gate (the last line of rt ci).
# Those who read this have set `top`, the clone.
# shellcheck disable=SC2154

crate=ssh_mux_cli
# shellcheck source=share/command.bash
. "$top/share/command.bash" || exit 2
# shellcheck source=share/sources.bash
. "$top/share/sources.bash" || exit 2
passed=$top/.ci/out/passed
built=$top/crates/$crate/out/$crate

# Why a tree isn't exactly a commit; nothing where it is.
fault_of_tree() {
  local changed
  if ! git -C "$top" rev-parse -q --verify HEAD >/dev/null 2>&1; then
    echo "it is no clone with a commit"
  elif [ "$(git -C "$top" rev-parse --show-toplevel)" != "$top" ]; then
    echo "it is no clone, but lies in one"
  else
    changed=$(git -C "$top" status --porcelain | head -n 1)
    [ -z "$changed" ] || printf 'it has what is not committed: %s\n' "${changed:3}"
  fi
}

commit_of_tree() { git -C "$top" rev-parse HEAD; }

# What the tree is as it stands: one line for each fact, all but the gate's.
facts_of_tree() {
  list_crates
  printf '%s\n' "commit $(commit_of_tree)" "sources $(sum_of_sources)" \
    "program $(sum_of_file "$built")" "kit $(sed -n 2p "$top/VERSION")"
}

# Before a gate begins nothing has passed. Both say why nothing will be left, if so.
begin_gate() {
  rm -f "$passed"
  gate_fault=$(fault_of_tree) gate_commit=
  [ -n "$gate_fault" ] || gate_commit=$(commit_of_tree)
}
leave_passed() {
  local fault=${gate_fault:-$(fault_of_tree)}
  [ -n "$fault" ] || [ "$(commit_of_tree)" = "$gate_commit" ] || fault="another commit was checked out"
  [ -n "$fault" ] || fault=$(fault_of_program "$built")
  if [ -n "$fault" ]; then
    echo "gate: no release can be made of this tree: $fault"
    return
  fi
  mkdir -p "${passed%/*}" && { facts_of_tree; printf 'skipped %s\ngate %s\n' "$1" "$2"; } >"$passed"
}
