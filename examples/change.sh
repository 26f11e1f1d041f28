#!/bin/sh
# Changes a room that is served: its fleet, its terminals or its plan. The room stands still for as
# long as that takes, and the change is kept in its list, where it keeps one. Prints what the change
# prints, and how long the room stood still.
#
#   change.sh import FLEET.csv             vehicles, with the tokens of their crews
#   change.sh terminals --new position:3   a token
#   change.sh replan PLAN.csv
#
# FOLDER and UNIT in the environment name another room than the unit's. Whatever fails, the room is
# served again; the status is the change's.
set -eu
case ${1:-} in
import | terminals | replan) ;;
*)
    echo 'usage: change.sh import|terminals|replan WORD ..' >&2
    exit 2
    ;;
esac
command=$1 folder=${FOLDER:-/var/lib/dispatch-room} unit=${UNIT:-dispatch-room}
shift

began=$(date +%s%3N)
systemctl stop "$unit"
trap 'systemctl start "$unit"' EXIT
# (a rotation may have moved the list, and the room not begun the next)
if [ -e "$folder/room.list" ] || [ -e "$folder/room.list.1" ]; then
    set -- "$@" --journal "$folder/room.list"
fi
status=0
dispatch_room "$command" "$folder/room.db" "$@" || status=$?
trap - EXIT
systemctl start "$unit"
echo "the room stood still for $(($(date +%s%3N) - began)) ms"
exit $status
