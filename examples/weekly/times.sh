#!/usr/bin/env bash
# The activation times of a division's day over rooms of which each was made of the one before, as
# renew.sh leaves them: by the first that was replaced after the day, and by the next, which knows
# what came of what went on.
#
#   times.sh DIVISION DAY ROOM [ARCHIVE ..]       times.sh 1 2026-03-23 /backup/room.db room.2*.db
#
# The archives come in the order of their names, which have the days on which they were replaced.
# None of the rooms is served: of one that is, a copy does.
set -eu
if [ $# -lt 3 ]; then
    echo 'usage: times.sh DIVISION DAY ROOM [ARCHIVE ..]' >&2
    exit 2
fi
division=$1 day=$2 room=$3
shift 3

older='' newer=$room
for file; do
    if [ -n "$older" ]; then
        newer=$file
        break
    fi
    name=${file##*/}
    replaced=${name#room.}
    [[ ${replaced%%.*} > $day ]] && older=$file
done
if [ -n "$older" ]; then
    exec dispatch_room times "$newer" "$division" "$day" --and "$older"
fi
exec dispatch_room times "$room" "$division" "$day"
