#!/usr/bin/env bash
# Tries the server of examples/server with a real Prometheus: tests the alerts and the dashboard by names.py, sends the server
# 2,000 requests while Prometheus scrapes it each second by prometheus.yml, and compares what both say of its metrics. Then it
# sends heads that are wrong, cut short or long, and compares when the server ends clients that are slow or many, and how long
# scrapes beside them take. Prints a line for each comparison. Its last line says whether all is well; its status is then 0, else
# 1. The gate runs it with --alone and 100 requests.
#
#   scripts/try_server.sh [--alone] [REQUESTS]       at least 100; with --alone no Prometheus takes part
#   scripts/try_server.sh --bodies         plants each body of served_bodies.md (web_server/must-fail) in the server instead, and
#                                          makes these comparisons, but for those of Prometheus: one must differ. The last line is
#                                          'N refused, M not refused', and the status is 0 if M is 0
#   scripts/try_server.sh --prove          proves the server by `rt ci` instead, and the library under the server's HANDLES
#
# The server is compiled with run-time checks (scripts/unproved.py), in a scratch folder with copies of the library's crates, and
# else not proved. Where no `prometheus` is installed, its part is left out with a line that begins with SKIP. All listen on the
# loopback address alone.
set -u

top=$(cd "$(dirname "$0")/.." && pwd) || exit 1
is_alone=
[[ ${1:-} == --alone ]] && { is_alone=yes; shift; }
requests=${1:-2000}
# How long the server may run.
seconds=600
example=$top/examples/server
scratch=$(mktemp -d) || exit 1
server='' prometheus=''

# Ends processes that this script started.
stop() {
    [[ $# == 0 ]] || { kill "$@"; wait "$@"; } 2>/dev/null
}
# shellcheck disable=SC2086
trap 'stop $server $prometheus; rm -rf "$scratch"' EXIT
trap 'exit 1' INT TERM HUP

fail() {
    echo "FAILED: $1"
    exit 1
}

# The crates and the server's, as a repository of its own.
lay_out() {
    "$top/scripts/crates.py" "$scratch/repository" examples/server
}

# Two ports that are free at this moment.
free_ports() {
    python3 - <<'PYTHON'
import socket
sockets = [socket.create_server(("127.0.0.1", 0)) for _ in range(2)]
print(*[it.getsockname()[1] for it in sockets])
PYTHON
}

# Waits until a process answers at an address. What fails to connect isn't counted by the server, so it counts one request.
wait_for() {
    local process=$1 address=$2
    until curl -sf -o "$scratch/first" "$address"; do
        kill -0 "$process" 2>/dev/null || return 1
        sleep 0.5
    done
}

start_server() {
    read -r port its_port < <(free_ports)
    timeout "$seconds" "$top/scripts/unproved.py" --crates "$scratch/repository" web_server "$port" >"$scratch/server" 2>&1 &
    server=$!
    wait_for "$server" "http://127.0.0.1:$port/metrics" || { cat "$scratch/server"; fail "the server didn't start"; }
}

start_prometheus() {
    cp "$example/alerts.yml" "$scratch/"
    sed -e 's/_interval: .*/_interval: 1s/' -e "s/127\.0\.0\.1:[0-9]*/127.0.0.1:$port/" \
        "$example/prometheus.yml" >"$scratch/prometheus.yml"
    prometheus --config.file="$scratch/prometheus.yml" --storage.tsdb.path="$scratch/data" \
        --web.listen-address="127.0.0.1:$its_port" --log.level=warn >"$scratch/prometheus" 2>&1 &
    prometheus=$!
    wait_for "$prometheus" "http://127.0.0.1:$its_port/-/ready" || { cat "$scratch/prometheus"; fail "Prometheus didn't start"; }
    prometheus --version 2>&1 | head -n 1
}

# Sends requests, and compares the responses, and a document that tells of them.
try_requests() {
    python3 "$example/client.py" "$port" "$requests" >"$scratch/counts" || fail "a response isn't as it should be"
    sed 's/^/answered: /' "$scratch/counts"
    curl -sS -D "$scratch/headers" -o "$scratch/document" "http://127.0.0.1:$port/metrics" || fail "curl received no document"
    now=$(date +%s.%N)
    python3 "$example/compare.py" document "$scratch/counts" "$scratch/headers" "$scratch/document" "$scrapers" ||
        fail "the document differs"
}

# Compares what comes of heads of all kinds, and of clients that are slow or many.
try_limits() {
    python3 "$example/heads.py" "$port" || fail "a head isn't answered or counted as it should be"
    python3 "$example/slow.py" "$port" 8 || fail "a client isn't ended when it should be, or a scrape waited for another client"
}

# Plants each body of served_bodies.md by itself, and expects that a comparison differs.
try_bodies() {
    local titles title refused=0 missed=0
    mapfile -t titles < <(sed -n 's/^## //p' "$example/web_server/must-fail/served_bodies.md")
    for title in "${titles[@]}"; do
        lay_out
        "$top/scripts/bodies.py" plant "$title" "$scratch/repository/crates/web_server" || fail "a body can't be planted"
        start_server
        if (try_requests && try_limits) >"$scratch/said" 2>&1; then
            echo "NOT REFUSED: $title"
            missed=$((missed + 1))
        else
            echo "refused: $title: $(grep -m 1 -E '^(DIFFERS: |request )' "$scratch/said" || tail -n 1 "$scratch/said")"
            refused=$((refused + 1))
        fi
        stop "$server"
        server=''
    done
    echo "$refused refused, $missed not refused"
    [[ $missed == 0 ]]
}

# Ends the server as its users do, and compares the last line that it prints.
end_server() {
    local jobs status
    curl -sf "http://127.0.0.1:$port/quit" || fail "the server doesn't answer /quit"
    wait "$server"
    status=$?
    server=''
    jobs=$(awk '$1 == "GET" && $2 == 200 && $3 == "/work" { print $4 }' "$scratch/counts")
    if [[ $status != 0 ]] || ! grep -qE "^connections [0-9]+ jobs $jobs\$" "$scratch/server"; then
        cat "$scratch/server"
        fail "the server didn't end well"
    fi
    echo "equal: jobs at the end: $jobs"
}

lay_out
if [[ $requests == --prove ]]; then
    (cd "$scratch/repository" && rt ci web_server) | grep -E '^rt: |^[0-9]+ passed, '
    exit "${PIPESTATUS[0]}"
fi
scrapers=alone
if [[ $requests == --bodies ]]; then
    requests=100
    try_bodies
    exit
fi
python3 "$example/names.py" || fail "the alerts or the dashboard don't fit the server"
start_server
if [[ $is_alone ]]; then
    echo "no Prometheus takes part"
elif command -v prometheus >"$scratch/first"; then
    scrapers=prometheus
    start_prometheus
else
    echo "SKIP: no prometheus is installed (apt-get install prometheus)"
fi

try_requests
if [[ $prometheus ]]; then
    python3 "$example/compare.py" prometheus "$scratch/counts" "$scratch/document" "$its_port" "$now" ||
        fail "Prometheus differs"
    stop "$prometheus"
    prometheus=''
fi
try_limits
end_server
echo "all is well: $requests requests were answered and counted"
