#!/bin/sh
# A runtime in shell: it asks for the next event, upper-cases it, and sends that back. Usage: runtime.sh [PORT [COUNT]]
# Without PORT the broker's port of the environment is that of AWS_LAMBDA_RUNTIME_API, which is HOST:PORT.
api=http://${1:+127.0.0.1:}${1:-$AWS_LAMBDA_RUNTIME_API}/2018-06-01/runtime
left=${2:--1}
while [ "$left" -ne 0 ]; do
    head=$(mktemp)
    event=$(curl -s -D "$head" "$api/invocation/next") || exit 1
    id=$(tr -d '\r' < "$head" | sed -n 's/^lambda-runtime-aws-request-id: //Ip')
    rm "$head"
    [ -n "$id" ] || exit 1
    answer=$(printf '%s' "$event" | tr '[:lower:]' '[:upper:]')
    curl -s -o /dev/null -d "$answer" "$api/invocation/$id/response" || exit 1
    left=$((left - 1))
done
