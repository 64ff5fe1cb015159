#!/bin/sh
# Carries the messages of one hub to another: by a pipe, and then through an MQTT broker on the loopback, as between two machines.
#
# Usage: examples/gateway.sh. The hubs are runs of ./iox, or of what the variable IOX names, as IOX='./iox --unproved'. Where Mosquitto isn't there
# (Debian's packages mosquitto and mosquitto-clients) it says so and passes over it.
set -eu
top=$(cd "$(dirname "$0")/.." && pwd)
cd "$top"
PATH=$PATH:/usr/sbin
IOX=${IOX:-./iox}
PORT=${PORT:-18831}
work=$(mktemp -d)
broker=
trap '[ -z "$broker" ] || kill "$broker"; rm -r "$work"' EXIT

tracer=crates/example_tracer/out/example_tracer
[ -x "$tracer" ] || (cd crates/example_tracer && rt run <stdin >/dev/null)

# What the hub over there replies to the reading of its own subscriber.
there() {
    cat examples/gateway/there.iox - examples/gateway/there-reads.iox | $IOX | tail -n "$(wc -l <examples/gateway/there-reads.iox)"
}

$IOX <examples/gateway/here.iox >"$work/here"
echo "received here:"
grep '^ok m' "$work/here"

echo "received there, by a pipe:"
"$tracer" serve <"$work/here" | grep . | there >"$work/piped"
grep '^ok m' "$work/piped"

command -v mosquitto >/dev/null && command -v mosquitto_pub >/dev/null || { echo "no Mosquitto here: the way through a broker isn't tried"; exit 0; }
mosquitto -p "$PORT" >"$work/broker" 2>&1 &
broker=$!
sleep 1
mosquitto_sub -h 127.0.0.1 -p "$PORT" -t hub/sensors -q 1 -W 20 -C "$(grep -c '^ok m' "$work/here")" >"$work/carried" &
carrier=$!
sleep 1
"$tracer" serve <"$work/here" | grep . | mosquitto_pub -h 127.0.0.1 -p "$PORT" -t hub/sensors -q 1 -l
wait "$carrier"
echo "received there, through $(mosquitto -h | head -n 1):"
there <"$work/carried" >"$work/brokered"
grep '^ok m' "$work/brokered"
cmp "$work/piped" "$work/brokered" && echo "the same both ways"
