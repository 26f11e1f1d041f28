#!/usr/bin/env bash
# Activation over a month of a division, out of the reports of its days: a line for each day, and a picture by gnuplot
# (Debian's gnuplot-nox). Usage: examples/month/month.sh ROOM DIVISION MONTH [PICTURE.svg], the month as 2026-03.
set -eu -o pipefail
if [ $# -lt 3 ] || [ $# -gt 4 ]; then
  echo 'usage: examples/month/month.sh ROOM DIVISION MONTH [PICTURE.svg]' >&2
  exit 2
fi
room=$1 division=$2 month=$3 picture=${4-}
here=$(cd "$(dirname "$0")" && pwd)

# In the tree the program is built first where it has to be; its package puts it on the PATH.
dispatch_room=$here/../../dispatch_room
[ -x "$dispatch_room" ] || dispatch_room=dispatch_room

folder=$(mktemp -d)
trap 'rm -rf "$folder"' EXIT

# The activations of all days, the shortest of a day first: the day, and the seconds or - where nothing was sent.
last=$(date --utc --date "$month-01 +1 month -1 day" +%d)
for day in $(seq --format %02g "$last"); do
  "$dispatch_room" times "$room" "$division" "$month-$day" >"$folder/day"
  awk -F, -v day="$month-$day" 'NR > 1 { print day, $3 == "" ? "-" : $3 }' "$folder/day" | sort --stable --key 2n
done >"$folder/activations"

# For each day how many incidents there were, how many were sent a vehicle, and how many within 180 s; and within how
# many seconds 5, 25, 50, 75 and 95 of a hundred of those that were sent one got their first.
awk -v month="$month" -v last="$last" '
  { incidents[$1]++ }
  $2 != "-" { seconds[$1, ++sent[$1]] = $2; within[$1] += $2 <= 180 }
  END {
    split("5 25 50 75 95", shares)
    print "day,incidents,sent,within,p5,p25,p50,p75,p95"
    for (nth = 1; nth <= last; nth++) {
      day = sprintf("%s-%02d", month, nth)
      printf "%s,%d,%d,%d", day, incidents[day], sent[day], within[day]
      for (share = 1; share <= 5; share++)
        printf ",%s", seconds[day, int((sent[day] * shares[share] + 99) / 100)]
      print ""
    }
  }' "$folder/activations" | tee "$folder/days"

if [ -n "$picture" ]; then
  gnuplot -e "days='$folder/days'; month='$month'; division='$division'" "$here/month.gp" >"$folder/picture"
  mv "$folder/picture" "$picture"
fi
