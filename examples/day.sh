#!/usr/bin/env bash
# A short day in the room, step by step: a room is made, a fleet enrolled, a call taken, a vehicle
# sent, lent and given back, and the day's report written. Needs curl. Usage: examples/day.sh [FOLDER [PORT]]; in the
# folder the room's file is left, without a folder it is removed at the end.
set -eu
cd "$(dirname "$0")/.."

folder=${1-}
if [ -z "$folder" ]; then
  folder=$(mktemp -d)
  trap 'rm -rf "$folder"' EXIT
fi
room=$folder/room.db
address=127.0.0.1:${2-8192}

# In the tree the program is built first where it has to be; its package puts it on the PATH.
dispatch_room=./dispatch_room
[ -x "$dispatch_room" ] || dispatch_room=dispatch_room

say() { printf '\n# %s\n' "$*"; }

# Shows a command of the program, and runs it.
program() {
  echo "\$ dispatch_room $*"
  "$dispatch_room" "$@"
}

# Shows a request of a terminal, and its answer, which is kept.
ask() {
  local terminal=$1 method=$2 path=$3 body=${4-}
  echo "$terminal: $method $path $body"
  answer=$(curl --silent --show-error --request "$method" --header "X-Terminal: $terminal" \
    --header 'Connection: close' ${body:+--data "$body"} "http://$address$path")
  echo "$answer"
}

now=$(date +%s)

say 'A plan makes a room: two divisions, a desk each, one call taker.'
program init "$room" examples/plan.csv

say 'Its fleet is enrolled: four vehicles of division 1, one of division 2.'
program import "$room" examples/fleet.csv

say 'The room is served to 20 connections, one after another.'
echo "\$ dispatch_room serve room.db $address --connections 20 --idle 60000"
"$dispatch_room" serve "$room" "$address" --connections 20 --idle 60000 >"$folder/serving" &
server=$!
until [ -s "$folder/serving" ]; do
  kill -0 "$server" || exit 1
  sleep 0.05
done

say 'Three crews come on duty, each at its place, for an hour.'
ask deskone1 POST /vehicles/A1/duty "{\"place\":\"TQ303804\",\"until\":$((now + 3600))}"
ask deskone1 POST /vehicles/A3/duty "{\"place\":\"TQ300801\",\"until\":$((now + 3600))}"
ask desktwo2 POST /vehicles/B1/duty "{\"place\":\"TQ600800\",\"until\":$((now + 3600))}"

say 'A call makes an incident. Sent again, for a reply was lost: the same reply, and nothing is done twice.'
ask takerone POST /call '{"class":2,"needs":[1,0,0],"note":"a fall","place":"TQ300800","serial":1}'
ask takerone POST /call '{"class":2,"needs":[1,0,0],"note":"a fall","place":"TQ300800","serial":1}'

say 'A second caller, 200 m away, reports the same: the call is linked.'
ask takerone POST /call '{"class":2,"needs":[1,0,0],"note":"man down","place":"TQ302800","serial":2}'
ask deskone1 GET /incidents
opened=${answer#*'"opened":'}
opened=${opened%%,*}

say 'The desk asks whom to send: the nearest of the kind that is needed. It sends A3.'
ask deskone1 GET /incidents/1/propose
ask deskone1 POST /incidents/1/mobilise '{"vehicle":"A3"}'

say 'The crew presses its buttons. A report that comes twice acts once.'
ask crewofa3 POST /report '{"button":"mobile","number":1,"order":1,"place":"TQ300801"}'
ask crewofa3 POST /report '{"button":"scene","number":2,"order":1,"place":"TQ300800"}'
ask crewofa3 POST /report '{"button":"scene","number":2,"order":1,"place":"TQ300800"}'

say 'Division 2 is short of vehicles: desk 1 offers A1, and desk 2 accepts. Then only desk 2 may send it.'
ask deskone1 POST /vehicles/A1/lend "{\"to\":2,\"until\":$((now + 1800))}"
ask desktwo2 POST /vehicles/A1/accept
ask deskone1 POST /vehicles/A1/off

say 'What desk 1 sees now, over one connection more: its board.'
program board "$address" deskone1 --patience 60

say 'Desk 1 wants it back: with the next press of the home button it is.'
ask deskone1 POST /vehicles/A1/recall
ask crewofa1 POST /report '{"button":"home","number":1,"order":0,"place":"TQ303804"}'

say 'The crew is on its way back, and the incident is closed.'
ask crewofa3 POST /report '{"button":"return","number":3,"order":1,"place":"TQ300800"}'
ask deskone1 POST /incidents/1/close
wait "$server"

say 'The day of division 1, as CSV: an incident a line, the seconds from its opening to its first order.'
program times "$room" 1 "$(TZ=GMT0BST,M3.5.0/1,M10.5.0 date --date "@$opened" +%F)"
