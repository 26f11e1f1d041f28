# What the benchmarks share that are programs: each run sources this file.
# Such a program is no crate of the repository, so that the gate stays short. As the gate refuses a .rt file that is of
# no crate, main.rt.txt gets that name in a copy of the crates, where it is proved, built and run.
# RT names another command for rt.

# Puts the program that lies beside the run into a copy of the crate that it times and of those below it, and goes to it.
# Usage: go_beside CRATE
go_beside() {
  local here top work crate libraries library
  here=$(cd "$(dirname "$0")" && pwd)
  top=$(cd "$here/../.." && pwd)
  crate=bench_$(basename "$here")
  work=$(mktemp -d)
  trap "rm -rf '$work'" EXIT
  # all on which it stands: a line of crates.txt, whose lowest crate is first, has those that it names itself
  libraries=$(tac "$top/crates.txt" | awk -F: -v named="$1" '
    BEGIN { stands[named] }
    $1 in stands { print $1; count = split($2, below, " "); for (i = 1; i <= count; i++) stands[below[i]] }
    END { for (name in stands) print name }' | awk '!seen[$0]++' | tac | tr '\n' ' ')
  mkdir -p "$work/crates/$crate/src"
  for library in $libraries; do
    [ -d "$top/crates/$library" ] || continue # it is the kit's
    cp -r "$top/crates/$library" "$work/crates/"
    grep "^$library:" "$top/crates.txt" >>"$work/crates.txt"
  done
  echo "$crate: $libraries anyhow" >>"$work/crates.txt"
  cp "$top/HANDLES" "$work/"
  cp "$here/main.rt.txt" "$work/crates/$crate/src/main.rt"
  cd "$work/crates/$crate"
}
