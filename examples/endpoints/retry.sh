#!/usr/bin/env bash
# One event to an endpoint that answers 503: three attempts, then a message of the dead-letter queue. It takes about 5 seconds.
#
#     examples/endpoints/answer.py 9000 503     in another terminal
#     examples/endpoints/retry.sh
#
# A word names another port than 9000. The target has two retries, which are due 1 second and then 2 seconds after the attempt
# before, so the script asks for what is due four times a second. It prints each reply that counts an attempt, the sums, and the
# message. The status is 0 if all of it is as expected, and 1 if not. EBUSD names another program than bin/ebusd.
set -u
export LC_ALL=C # lengths are in bytes
trap '' PIPE

ebusd=${EBUSD:-$(dirname "$0")/../../bin/ebusd}
port=${1:-9000}
queue=arn:aws:sqs:us-east-1:111122223333:d
MOST=40 # requests for what is due: 10 seconds

fail() {
  echo "retry.sh: $*" >&2
  exit 1
}

# Builds the program now, if it has to be built.
"$ebusd" once --now 0 </dev/null || fail "$ebusd ended with status $? on empty input"

coproc "$ebusd" once
to=${COPROC[1]} from=${COPROC[0]}

# Makes a request of action $1 with the body $2, and puts the body of its reply into `reply`.
ask() {
  local line length=
  printf 'POST / HTTP/1.1\r\nHost: 127.0.0.1\r\nX-Amz-Target: %s\r\nContent-Length: %d\r\n\r\n%s' "$1" "${#2}" "$2" >&"$to" ||
    fail "the router takes no request"
  while IFS= read -r -t 20 line <&"$from" && [[ $line != $'\r' ]]; do
    [[ $line =~ ^Content-Length:\ ([0-9]+) ]] && length=${BASH_REMATCH[1]}
  done
  [[ $length ]] && IFS= read -r -N "$length" -t 20 reply <&"$from" || fail "$1 has no reply"
}

# The number of member $1 in the last reply.
count() {
  [[ $reply =~ \"$1\":([0-9]+) ]] && echo "${BASH_REMATCH[1]}"
}

retries='{"MaximumRetryAttempts":2}'
target="{\"Id\":\"t\",\"Arn\":\"http://127.0.0.1:$port/x\",\"RetryPolicy\":$retries,\"DeadLetterConfig\":{\"Arn\":\"$queue\"}}"
ask RouterLocal.CreateQueue '{"QueueName":"d"}'
ask AWSEvents.PutRule '{"Name":"r","EventPattern":"{\"source\":[\"shop.orders\"]}"}'
ask AWSEvents.PutTargets "{\"Rule\":\"r\",\"Targets\":[$target]}"
ask AWSEvents.PutEvents '{"Entries":[{"Source":"shop.orders","DetailType":"Order","Detail":"{\"total\":12.50}"}]}'

attempts=0 delivered=0 dead=0 dropped=0
for ((asked = 0; asked < MOST && delivered + dead + dropped == 0; asked++)); do
  ask RouterLocal.DeliverDue '{}'
  if (($(count Attempts) > 0)); then
    echo "$reply"
    attempts=$((attempts + $(count Attempts)))
    delivered=$((delivered + $(count Delivered)))
    dead=$((dead + $(count DeadLettered)))
    dropped=$((dropped + $(count Dropped)))
  fi
  sleep 0.25
done
echo "in all $attempts attempts, $delivered delivered, $dead dead-lettered, $dropped dropped"
ask RouterLocal.PeekMessages '{"QueueName":"d"}'
echo "$reply"
exec {to}>&-

[[ $attempts == 3 && $delivered == 0 && $dead == 1 && $dropped == 0 ]] || fail "3 attempts and 1 dead letter are expected"
[[ $reply == *'"ERROR_CODE":"STATUS_503"'* ]] || fail "the code STATUS_503 is expected: does an endpoint at port $port answer 503?"
[[ $reply == *'"RETRY_ATTEMPTS":"2"'* ]] || fail "2 retries are expected"
