#!/usr/bin/env bash
# The same as sdk.py by curl. The endpoint is examples/endpoints/answer.py, at a free port.
#
#     curl.sh 9100
set -eu
port=$1

fail() {
  echo "curl.sh: $*" >&2
  exit 1
}

# Makes a request of action $1 with the body $2, and puts the body of its reply into `reply`. It tries for an hour to connect.
ask() {
  reply=$(curl -sS --noproxy '*' --retry-connrefused --retry 3600 --retry-delay 1 --fail-with-body \
    -H "X-Amz-Target: $1" -d "$2" "http://127.0.0.1:$port/") || fail "$1: $reply"
}

ask AWSEvents.CreateEventBus '{"Name":"curl"}'
exec 3< <(exec "$(dirname "$0")/../endpoints/answer.py" 0 200 --requests 10 --seconds 60)
read -r line <&3 || fail "answer.py did not start"
endpoint=http://${line#listening on }/

ask AWSEvents.PutRule '{"Name":"orders","EventBusName":"curl","EventPattern":"{\"source\":[\"shop.orders\"]}"}'
ask AWSEvents.PutTargets "{\"Rule\":\"orders\",\"EventBusName\":\"curl\",\"Targets\":[{\"Id\":\"here\",\"Arn\":\"$endpoint\"}]}"
[[ $reply == '{"FailedEntryCount":0,'* ]] || fail "PutTargets fails: $reply"
entries=
for order in {0..9}; do
  entries+=",{\"Source\":\"shop.orders\",\"DetailType\":\"Order\",\"EventBusName\":\"curl\",\"Detail\":\"{\\\"order\\\":$order}\"}"
done
ask AWSEvents.PutEvents "{\"Entries\":[${entries#,}]}"
[[ $reply == '{"FailedEntryCount":0,'* ]] || fail "PutEvents fails: $reply"

events=$(grep '^{' <&3 | sort) || fail "no event came"
sed 's/^/received /' <<<"$events"
[[ $(wc -l <<<"$events") == 10 ]] || fail "10 events are expected"
for ((asked = 0; asked < 600; asked++)); do
  ask RouterLocal.DutyCounts '{}'
  [[ $reply == *'"Pending":0,'* ]] && exit 0
  sleep 0.1
done
fail "deliveries are pending after 60 s: $reply"
