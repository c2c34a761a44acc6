#!/usr/bin/env bash
# A framework over curl and jq: examples/framework.sh [PORT [TASKS]]
#                               examples/framework.sh --teardown ID [PORT]
# It subscribes to the master at 127.0.0.1:PORT (5050), launches TASKS tasks (2) of one cpu each, one of an offer, acknowledges each update, prints each state, and tears
# itself down when all have finished. With --teardown it ends a framework that is gone, by its id: it subscribes as that one, and tears it down, with all of its tasks.
set -euo pipefail
if [ "${1-}" = --teardown ]; then id=$2 port=${3-5050} tasks=0; else id='' port=${1-5050} tasks=${2-2}; fi
url=http://127.0.0.1:$port/api/v1/scheduler
room=$(mktemp -d)
trap 'kill "$reader" 2>/dev/null || true; rm -rf "$room"' EXIT

# Sends a call of a type, with the members that jq makes of $2; the answer is 202, and what comes of it are events.
call() {
  jq -nc --arg type "$1" --arg id "$id" "{type: \$type, framework_id: {value: \$id}} + ${2-{\}}" |
    curl -sSf -o /dev/null -H 'Content-Type: application/json' -H "Mesos-Stream-Id: $stream" --data-binary @- "$url"
}

mkfifo "$room/events"
jq -nc --arg id "$id" '{type: "SUBSCRIBE", subscribe: {framework_info: {user: "me", name: "shell"}}}
    | if $id == "" then . else .framework_id.value = $id | .subscribe.framework_info.id.value = $id end' |
  curl -sSNf -D "$room/head" -H 'Content-Type: application/json' --data-binary @- "$url" > "$room/events" &
reader=$!
exec 3< "$room/events"
launched=0 finished=0
declare -A told
while IFS= read -r size <&3; do # each event is its size in digits, a line feed, and so many bytes of JSON
  event=$(head -c "$size" <&3)
  case $(jq -r .type <<< "$event") in
  SUBSCRIBED)
    stream=$(sed -n 's/^mesos-stream-id: *\([^ \r]*\).*/\1/Ip' "$room/head")
    id=$(jq -r .subscribed.framework_id.value <<< "$event")
    echo "subscribed as $id"
    if [ "${1-}" = --teardown ]; then call TEARDOWN; echo "$id is torn down"; exit; fi
    ;;
  OFFERS)
    while read -r offer; do
      launch='[]'
      if [ "$launched" -lt "$tasks" ]; then
        launch=$(jq -c --arg name "task-$launched" '[{type: "LAUNCH", launch: {task_infos: [{name: $name, task_id: {value: $name}, agent_id,
            resources: [{name: "cpus", type: "SCALAR", scalar: {value: 1}}]}]}}]' <<< "$offer")
        launched=$((launched + 1))
      fi
      call ACCEPT "{accept: {offer_ids: [$(jq -c .id <<< "$offer")], operations: $launch, filters: {refuse_seconds: 1}}}"
    done < <(jq -c '.offers.offers[]' <<< "$event")
    ;;
  UPDATE)
    status=$(jq -c .update.status <<< "$event")
    if [ "$(jq 'has("uuid")' <<< "$status")" = true ]; then call ACKNOWLEDGE "{acknowledge: ($status | {agent_id, task_id, uuid})}"; fi
    read -r name state < <(jq -r '.task_id.value + " " + .state' <<< "$status")
    if [ "${told[$name]-}" != "$state" ]; then # an update is sent again until it is acknowledged
      told[$name]=$state
      echo "$name $state"
      if [ "$state" = TASK_FINISHED ]; then finished=$((finished + 1)); fi
    fi
    if [ "$finished" = "$tasks" ]; then call TEARDOWN; echo "$tasks tasks finished"; exit; fi
    ;;
  esac
done
echo 'the stream ended before all tasks had finished' >&2; exit 1
