#!/bin/sh
# A caller in shell: it invokes the function with a JSON text, waits for the record of its end, prints and collects it.
# Usage: caller.sh PORT FUNCTION JSON
broker=http://127.0.0.1:$1
head=$(mktemp)
status=$(curl -s -o /dev/null -D "$head" -w '%{http_code}' -H 'X-Amz-Invocation-Type: Event' -d "$3" \
    "$broker/2015-03-31/functions/$2/invocations")
id=$(tr -d '\r' < "$head" | sed -n 's/^x-amzn-requestid: //Ip')
rm "$head"
echo "$status $id"
[ "$status" = 202 ] || exit 1
while :; do
    for side in success failure; do
        record=$(curl -s "$broker/broker/destinations/$side") || exit 1
        case $record in *"$id"*)
            echo "$record"
            curl -s -o /dev/null -w '%{http_code}\n' -X DELETE "$broker/broker/destinations/$id"
            exit 0 ;;
        esac
    done
    sleep 0.2
done
