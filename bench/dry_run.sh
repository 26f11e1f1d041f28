#!/usr/bin/env bash
# Gives the dry run 1000, 2000, .. up to 9000 calls over one connection, and prints what each thousand costs:
# seconds of the processor, milliseconds a call within that thousand, and peak memory; then calls per
# second of all. With a number, so many thousands at most. It needs Debian's package time.
set -eu
cd "$(dirname "$0")/.."

thousands=${1:-9}
program=crates/dispatch_room/out/dispatch_room
work=$(mktemp -d)
trap 'rm -rf "$work"' EXIT

# So many calls of position 1, each with a new serial and 1 km from the next place: a hundred places from
# west to east, the first fifty of division 1 and the others of division 2, then the row north of them.
calls() {
  LC_ALL=C awk -v count="$1" 'BEGIN {
    for (serial = 1; serial <= count; serial++) {
      east = (serial - 1) % 100 * 1000
      north = int((serial - 1) / 100) * 1000
      body = sprintf("{\"class\":2,\"needs\":[1,0,0],\"note\":\"\",\"place\":\"TQ%05d%05d\",\"serial\":%d}", east, north, serial)
      printf "POST /call HTTP/1.1\r\nHost: room\r\nX-Terminal: takerone\r\nContent-Length: %d\r\n\r\n%s", length(body), body
    }
  }'
}

# A sum, to two places.
compute() { LC_ALL=C awk "BEGIN { printf \"%.2f\", $1 }"; }

# It builds the program where that is wanted.
./dispatch_room </dev/null

before=0
echo '| calls | seconds | ms a call, this thousand | peak memory, MiB |'
echo '|---|---|---|---|'
for ((count = 1000; count <= thousands * 1000; count += 1000)); do
  calls "$count" >"$work/in"
  /usr/bin/time -f '%U %S %M' -o "$work/cost" "$program" <"$work/in" >"$work/out"
  answers=$(grep -c '"linked":false}' "$work/out")
  if [ "$answers" -ne "$count" ]; then
    echo "dry_run.sh: $answers of $count calls made an incident" >&2
    exit 1
  fi
  read -r user system memory <"$work/cost"
  took=$(compute "$user + $system")
  echo "| $count | $took | $(compute "$took - $before") | $(compute "$memory / 1024") |"
  before=$took
done
echo
echo "$((count - 1000)) calls: $(compute "($count - 1000) / $took") calls a second"
