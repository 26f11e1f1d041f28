#!/bin/sh
# A new room of what is going on and of the last week, in the place of the one that is served; the
# old one stays beside it as its archive. Prints how long the room stood still.
#
#   renew.sh [FOLDER [UNIT]]
#
# Whatever fails, the room that is there is served again. After a stop it is run again.
set -eu
cd "${1:-/var/lib/dispatch-room}"
unit=${2:-dispatch-room}
now=$(date +%F.%H%M%S)

# Gives a file another name, if it is there; a link takes no name that a file has.
move() {
    [ ! -e "$1" ] || { ln "$1" "$2" && rm "$1"; }
}

# Serves the room that is there. A new one is kept only where it is the last.
serve() {
    [ ! -e room.db ] || rm -f next.db next.db-wal
    systemctl start "$unit"
}

began=$(date +%s)
systemctl stop "$unit"
trap serve EXIT

if [ -e room.db ]; then
    rm -f next.db next.db-wal
    # (examples/backup renews its copies by the day in the name)
    dispatch_room renew room.db next.db --since "$(date -d "${now%%.*} 7 days ago" +%F)"
fi
# A list ends with its room, and so do the parts that a rotation moved away. They go first: behind a
# list that was moved the same room goes on, too.
for list in room.list room.list.*; do
    move "$list" "room.$now.list${list#room.list}"
done
# The old room is set aside, with its log, before the new one comes.
printed=$(dispatch_room restore next.db room.db)
aside=$(echo "$printed" | sed -n 's/^set aside: //p')
for end in -wal ''; do
    move "$aside$end" "room.$now.db$end"
done

trap - EXIT
serve
echo "the room stood still for $(($(date +%s) - began)) s; the old one is room.$now.db"
