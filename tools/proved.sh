# How ./rx proves and builds the program. To be sourced by it.
# shellcheck shell=bash disable=SC2154,SC2034
#
# rt ci does it, as in the gate, over a copy of the crates that the program stands on: it proves each from nothing once
# those below it are. Where the kit's rt ci keeps what passed, it takes what the gate has passed on this machine, and
# keeps for the gate what passes here. The copy has no must-fail edits. The tests come beside the proofs, and behind
# them; rt ci is ended once the program is there.

# The crates as they are, as a repository of their own.
copy_sources() (
  cd -- "$top" && mkdir -- "$1/.git" "$1/tmp" || exit
  [ ! -e HANDLES ] || cp -- HANDLES "$1" || exit
  listed >"$1/crates.txt" && files | xargs -0 cp --parents -t "$1" --
)

# The lines of code of each crate, by which the time goes, and how many of all are left, and were proved in this run.
declare -A lines_of
count_lines() {
  local crate
  all_lines=0 proved_lines=0 done_crates=0
  while read -r crate; do
    lines_of[$crate]=$(find "$room/crates/$crate/src" -name '*.rt' -exec cat -- {} + | wc -l)
    all_lines=$((all_lines + lines_of[$crate]))
  done < <(cd -- "$room" && crates)
  left_lines=$all_lines
}

# How far the proof is. What is left is reckoned from what was expected and from what was seen until now.
tell() {
  local expected=$((60 * $(minutes_to_prove)))
  local left=$((left_lines * (expected + SECONDS) / (all_lines + proved_lines + 1)))
  say "$1$done_crates of ${#lines_of[@]} crates, $((SECONDS / 60)) min so far, about $(((left + 59) / 60)) min left"
}

# Notes that a crate is done, and of how many lines it was proved just now.
note() {
  done_crates=$((done_crates + 1)) left_lines=$((left_lines - lines_of[$1])) proved_lines=$((proved_lines + $2))
  tell "$1 $3: "
}

# Follows what rt ci says until the program is built, and fails where a crate isn't proved.
follow() {
  local line crate
  while true; do
    if ! IFS= read -r -t 300 line; then
      [ $? -gt 128 ] || return
      tell ''
      continue
    fi
    printf '%s\n' "$line" >>"$kept/log-proved"
    [[ $line == 'rt: '* ]] || continue
    line=${line#rt: } crate=${line%% *}
    case ${line#* } in
      proved) note "$crate" "${lines_of[$crate]}" 'is proved' ;;
      'is kept: '*) note "$crate" 0 'was proved before' ;;
      'NOT PROVED'*) return 1 ;;
      'another run '* | 'the disk has '*) say "$line" ;;
      *) continue ;;
    esac
    [ "$crate" != rx ] || return 0
  done
}

build_it() {
  room=$(mktemp -d) && copy_sources "$room" && sum=$(sum_of_sources "$room") || stop 'the sources cannot be copied'
  count_lines
  say "proving the ${#lines_of[@]} crates of the program, in $(cost), less what the toolchain has kept"
  SECONDS=0
  : >"$kept/log-proved"
  exec 7< <(cd -- "$room" && TMPDIR=$room/tmp exec rt ci 2>&1 </dev/null 9>&-)
  at_work=("$!")
  if ! follow <&7 || ! keep proved "$sum" "$room/crates/rx/out/rx"; then
    tail -n 40 -- "$kept/log-proved" >&2
    stop 'the program was not proved and built; what rt ci said last stands above, and all of it in .rx/log-proved'
  fi
  exec 7<&-
}
