#!/bin/bash
# Real clients of `kapd PLACE serve`: bench/clients.sh [KAPD]
#
# By the built program KAPD (crates/kapd/out/kapd): curl asks each route, well and badly, and each reply is compared;
# a task is defined, enabled, fed, read, disabled and deleted by HTTP alone; InfluxDB 1.x forwards its writes by a
# subscription, and what `kapd PLACE export` gives behind a stop is compared with what was written; python3-influxdb
# writes. It installs what it needs (Debian: influxdb, curl, python3-influxdb), listens and asks on 127.0.0.1 alone,
# and ends the processes that it started. It ends with 1 where a reply differs.
set -u
top=$(cd "$(dirname "$0")/.." && pwd)
kapd=$(readlink -f "${1:-$top/crates/kapd/out/kapd}")
[ -x "$kapd" ] || { echo "clients.sh: no program at $kapd" >&2; exit 2; }
for pair in curl:curl influxd:influxdb; do
    command -v "${pair%%:*}" > /dev/null || { apt-get update && apt-get install -y "${pair##*:}"; } > /dev/null 2>&1
done
python=/usr/bin/python3
"$python" -c 'import influxdb' 2> /dev/null || { apt-get update && apt-get install -y python3-influxdb; } > /dev/null 2>&1

work=$(mktemp -d)
started=()
failed=0
asked=0
stop_all() {
    for one in "${started[@]}"; do kill "$one" 2> /dev/null; done
    wait 2> /dev/null
    rm -rf "$work"
}
trap stop_all EXIT

# Starts a service on the folder $work/$1 with further options, and sets `service` and `port`.
serve() {
    local place=$work/$1
    shift
    [ -d "$place" ] || { mkdir "$place" && "$kapd" "$place" init || exit 1; }
    "$kapd" "$place" serve --addr 127.0.0.1:0 "$@" 2> "$work/said" &
    service=$!
    started+=("$service")
    port=
    for _ in $(seq 100); do
        port=$(sed -n 's/^kapd: listening on 127\.0\.0\.1://p' "$work/said")
        [ -n "$port" ] && return
        sleep 0.1
    done
    echo "clients.sh: no service listens: $(cat "$work/said")" >&2
    exit 1
}

end_service() {
    kill "$service"
    wait "$service" 2> /dev/null
    [ "$(wc -l < "$work/said")" = 1 ] || differs 'standard error' 'one line' "$(cat "$work/said")"
}

# Tells a difference: what was asked, what was wanted and what came.
differs() {
    failed=$((failed + 1))
    printf 'DIFFERS %s\n  wanted: %s\n  came:   %s\n' "$1" "$2" "$3"
}

# $1: the status and body that are wanted, as one line; the rest: what curl is told behind the address' path.
ask() {
    local wanted=$1 path=$2
    shift 2
    local came
    came=$(curl -s -m 10 -o "$work/body" -w '%{http_code}' "$@" "http://127.0.0.1:$port$path")
    [ "${1:-}" = -I ] && : > "$work/body"
    came="$came$(sed 's/^/ /' "$work/body" 2> /dev/null)"
    : > "$work/body"
    asked=$((asked + 1))
    if [ "$came" = "$wanted" ]; then
        printf 'ok   %s %s -> %.100s\n' "$path" "$*" "$came"
    else
        differs "$path $*" "$wanted" "$came"
    fi
}

echo "== routes, by curl"
serve routes
ask '204' /kapacitor/v1/ping
ask '204' /kapacitor/v1/ping -I
ask '405 {"error":"method not allowed"}' /kapacitor/v1/ping -X POST
ask '404 {"error":"not found"}' /nowhere
ask '200 {"tasks":[]}' /kapacitor/v1/tasks
ask '200 {"topics":[]}' /kapacitor/v1/alerts/topics
ask '404 {"error":"not found"}' /kapacitor/v1/alerts/topics/none
ask '404 {"error":"no task"}' /kapacitor/v1/tasks/none
script="stream|from().measurement('cpu')|alert().crit(lambda: \\\"idle\\\" < 10)"
plain="stream|from().measurement('cpu')|alert().crit(lambda: \"idle\" < 10)"
task="\"id\":\"cpu_alert\",\"script\":\"$script\""
ask "200 {$task,\"status\":\"disabled\",\"type\":\"stream\"}" /kapacitor/v1/tasks -d "{$task,\"type\":\"stream\"}"
ask '409 {"error":"exists"}' /kapacitor/v1/tasks -d "{$task}"
ask '400 {"error":"bad body"}' /kapacitor/v1/tasks -d '{"id":"x"}'
ask '400 {"error":"bad body"}' /kapacitor/v1/tasks -d 'no json'
ask '400 {"error":"bad body"}' /kapacitor/v1/tasks -d '{"id":"a b","script":"stream|from()"}'
ask '400 {"error":"script: NoKind at 14"}' /kapacitor/v1/tasks -d '{"id":"y","script":"stream|from()|nothing()"}'
ask "200 {$task,\"status\":\"disabled\",\"type\":\"stream\"}" /kapacitor/v1/tasks/cpu_alert
ask "200 {$task,\"status\":\"enabled\",\"type\":\"stream\"}" /kapacitor/v1/tasks/cpu_alert -X PATCH -d '{"status":"enabled"}'
ask '400 {"error":"bad body"}' /kapacitor/v1/tasks/cpu_alert -X PATCH -d '{"status":"on"}'
ask '405 {"error":"method not allowed"}' /kapacitor/v1/tasks/cpu_alert -X POST -d '{}'
ask '204' '/write?db=d&rp=autogen&precision=ns' --data-binary 'cpu,host=a idle=7i 5'
ask '204' '/kapacitor/v1/write?db=d&rp=autogen&precision=s' --data-binary $'cpu,host=a idle=50i 6\ncpu,host=a idle=3i 7'
ask '400 {"error":"db missing"}' '/write?rp=autogen' --data-binary 'cpu idle=1i 5'
ask '400 {"error":"bad precision"}' '/write?db=d&precision=x' --data-binary 'cpu idle=1i 5'
ask '400 {"error":"line 1: FloatField"}' '/write?db=d&rp=autogen' --data-binary 'cpu idle=1.5 5'
ask '400 {"error":"line 2: NoField"}' '/write?db=d&rp=autogen' --data-binary $'cpu idle=1i 5\ncpu'
ask '200 {"topics":[{"id":"main:cpu_alert:alert2","level":"CRITICAL"}]}' /kapacitor/v1/alerts/topics
ask '200 {"events":[{"id":"cpu:nil","level":"CRITICAL"}],"id":"main:cpu_alert:alert2","level":"CRITICAL"}' \
    /kapacitor/v1/alerts/topics/main:cpu_alert:alert2
ask "200 {$task,\"status\":\"disabled\",\"type\":\"stream\"}" /kapacitor/v1/tasks/cpu_alert -X PATCH -d '{"status":"disabled"}'
ask '204' /kapacitor/v1/tasks/cpu_alert -X DELETE
ask '404 {"error":"no task"}' /kapacitor/v1/tasks/cpu_alert -X DELETE
ask '200 {"tasks":[]}' /kapacitor/v1/tasks
printf '%s' "$plain" > "$work/cpu.tick"
echo "-- a script from a file, as JSON by python"
"$python" -c 'import json,sys; print(json.dumps({"id":"t","status":"enabled","script":open(sys.argv[1]).read()}))' "$work/cpu.tick" > "$work/task.json"
ask "200 {\"id\":\"t\",\"script\":\"$script\",\"status\":\"enabled\",\"type\":\"stream\"}" /kapacitor/v1/tasks -d "@$work/task.json"
ask '204' '/write?db=d&rp=autogen' --data-binary 'cpu,host=b idle=2i 9'
end_service
echo "-- what the store has behind the stop"
"$kapd" "$work/routes" tasks
"$kapd" "$work/routes" alerts
wanted=$'alert 1 main:cpu_alert:alert2 cpu:nil OK->CRITICAL 5 cpu:nil is CRITICAL'
came=$("$kapd" "$work/routes" alerts | head -1)
[ "$came" = "$wanted" ] || differs 'the first alert' "$wanted" "$came"
"$kapd" "$work/routes" export > "$work/points"
[ "$(wc -l < "$work/points")" = 12 ] || differs 'points of the store' '12 lines' "$(cat "$work/points")"

echo "== InfluxDB, by a subscription"
serve influx --seats 3
cat > "$work/influx.conf" <<CONF
reporting-disabled = true
bind-address = "127.0.0.1:0"
[meta]
  dir = "$work/influxdb/meta"
[data]
  dir = "$work/influxdb/data"
  wal-dir = "$work/influxdb/wal"
[http]
  bind-address = "127.0.0.1:18086"
  log-enabled = false
[subscriber]
  write-concurrency = 1
[monitor]
  store-enabled = false
CONF
influxd -config "$work/influx.conf" > "$work/influx.log" 2>&1 &
influx=$!
started+=("$influx")
for _ in $(seq 100); do curl -s -m 2 -o "$work/body" http://127.0.0.1:18086/ping && break; sleep 0.1; done
query() { curl -s -m 10 -XPOST http://127.0.0.1:18086/query --data-urlencode "q=$1"; }
query 'CREATE DATABASE d' > "$work/body"
query "CREATE SUBSCRIPTION kapd ON d.autogen DESTINATIONS ALL 'http://127.0.0.1:$port'" > "$work/body"
query 'SHOW SUBSCRIPTIONS'
sleep 1
: > "$work/wanted"
for batch in $(seq 25); do
    : > "$work/lines"
    for line in 1 2 3 4; do
        printf 'cpu,host=h%s idle=%di %d\n' "$line" $((batch * line)) $((1600000000000000000 + batch * 10 + line)) >> "$work/lines"
    done
    while read -r line; do printf 'd\nautogen\n%s\n' "$line"; done < "$work/lines" >> "$work/wanted"
    curl -s -m 10 -XPOST 'http://127.0.0.1:18086/write?db=d' --data-binary "@$work/lines"
done
for _ in $(seq 50); do
    [ "$("$python" - "$port" <<'PYTHON'
import http.client, sys
link = http.client.HTTPConnection("127.0.0.1", int(sys.argv[1]), timeout=5)
link.request("GET", "/kapacitor/v1/ping")
print(link.getresponse().status)
PYTHON
)" = 204 ] && break
done
sleep 2
curl -s -m 10 -XPOST 'http://127.0.0.1:18086/write?db=d' --data-binary 'cpu,host=f idle=1.5 1600000000000001000'
echo "-- whole numbers beside floats, by a database of their own"
query 'CREATE DATABASE mixed' > "$work/body"
query 'CREATE DATABASE whole' > "$work/body"
query "CREATE SUBSCRIPTION kapd ON whole.autogen DESTINATIONS ALL 'http://127.0.0.1:$port'" > "$work/body"
sleep 1
curl -s -m 10 -XPOST 'http://127.0.0.1:18086/write?db=mixed' --data-binary \
    $'cpu,host=a errs=3i,load=0.5 1600000000000000000\ncpu,host=a errs=12i,load=1.5 1600000030000000000'
query "SELECT max(errs) AS errs INTO whole.autogen.cpu FROM mixed.autogen.cpu
    WHERE time >= 1599999960s AND time < 1600000080s GROUP BY time(1m), host"
for line in 'cpu,host=a errs=3i 1599999960000000000' 'cpu,host=a errs=12i 1600000020000000000'; do
    printf 'whole\nautogen\n%s\n' "$line" >> "$work/wanted"
done
sleep 1
end_service
grep -h 'service=subscriber' "$work/influx.log" | tail -2
"$kapd" "$work/influx" export > "$work/points"
if cmp -s "$work/wanted" "$work/points"; then
    echo "ok   100 points of 25 writes came as they were written, in order, and 2 that a query picked"
else
    differs 'points of the subscription' "$(wc -l < "$work/wanted") lines" "$(wc -l < "$work/points") lines"
fi
kill "$influx"
wait "$influx" 2> /dev/null

echo "== python3-influxdb"
serve python
"$python" - "$port" <<'PYTHON'
import sys
from influxdb import InfluxDBClient
client = InfluxDBClient("127.0.0.1", int(sys.argv[1]), database="d", timeout=5)
point = {"measurement": "m", "tags": {"h": "a"}, "time": 5, "fields": {"x": 1}}
print("write_points", client.write_points([point], time_precision="n", retention_policy="autogen"))
print("write_points, as lines", client.write_points(["m x=2i 6"], protocol="line", retention_policy="autogen"))
for name, call in [
    ("a float", lambda: client.write_points([dict(point, fields={"x": 1.5})], time_precision="n")),
    ("ping", lambda: client.ping()),
    ("gzip", lambda: InfluxDBClient("127.0.0.1", int(sys.argv[1]), database="d", gzip=True).write_points([point])),
]:
    try:
        print(name, call())
    except Exception as fault:
        print(name, "is refused:", str(fault)[:80].replace("\n", " "))
PYTHON
end_service
wanted=$'d\nautogen\nm,h=a x=1i 5\nd\nautogen\nm x=2i 6'
came=$("$kapd" "$work/python" export)
[ "$came" = "$wanted" ] && echo "ok   export has both points" || differs 'points of python3-influxdb' "$wanted" "$came"

echo "== how it ends"
ends() {
    local wanted=$1 status=0
    shift
    timeout 10 "$kapd" "$@" 2> "$work/said" || status=$?
    local came="$status $(tr '\n' '|' < "$work/said")"
    [ "$came" = "$wanted" ] && echo "ok   $* -> $came" || differs "$*" "$wanted" "$came"
}
mkdir "$work/empty" "$work/made"
"$kapd" "$work/made" init
ends '2 kapd: usage|' "$work/made" serve
ends '2 kapd: usage|' "$work/made" serve --addr 127.0.0.1:0 --seats 0
ends '2 kapd: usage|' "$work/made" serve --addr 127.0.0.1:0 --seats 04
ends '2 kapd: usage|' "$work/made" serve --addr 127.0.0.1:0 --seats 65
ends '2 kapd: usage|' "$work/made" serve --addr 127.0.0.1:0 --idle 3601
ends '2 kapd: usage|' "$work/made" serve --addr -x
ends '2 kapd: usage|' "$work/made" serve --addr 127.0.0.1:0 --addr 127.0.0.1:0
ends '2 kapd: usage|' "$work/made" serve --addr 127.0.0.1:0 --single --seats 4
ends '2 kapd: usage|' "$work/made" serve --addr=127.0.0.1:0
ends '2 kapd: usage|' "$work/made" serve --addr 127.0.0.1:0 more
ends '6 kapd: not a store: head at 0|' - serve --addr 127.0.0.1:0
ends '6 kapd: not a store: head at 0|' "$work/empty" serve --addr 127.0.0.1:0
ends '73 kapd: disk fault|' "$work/none" serve --addr 127.0.0.1:0
ends '74 kapd: door fault|' "$work/made" serve --addr 127.0.0.1
ends '74 kapd: door fault|' "$work/made" serve --addr 192.0.2.1:80
serve made
ends '73 kapd: disk fault|kapd: another process uses the store|' "$work/made" serve --addr 127.0.0.1:0
ends '73 kapd: disk fault|kapd: another process uses the store|' "$work/made" tasks
mkdir "$work/other"
"$kapd" "$work/other" init
ends '74 kapd: door fault|' "$work/other" serve --addr "127.0.0.1:$port"
end_service

echo "$asked requests by curl; $failed differences"
[ "$failed" = 0 ]
