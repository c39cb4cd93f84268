#!/bin/sh
# Decisions a second of contrib/gtrbac-front by AuthZEN over plain HTTP, beside what nginx gives for
# a file of the same length: bench/front.sh [PROGRAM [FRONT..]]
# PROGRAM is the built `gtrbacd`. Each FRONT is measured in turn beside the one of contrib/, in the
# same rounds, so at the same load of the machine. SECONDS_EACH (2) is how long one round lasts,
# ROUNDS (3) how many there are, CONNECTIONS ("1 8 64") with how many connections. It needs root,
# unshare, wrk and nginx, and goes into a network of its own. Each line: which front, connections,
# decisions a second, median and 99 percent in milliseconds, processor time for each decision in
# microseconds, and how many answers were none.
set -eu
top=$(cd "$(dirname "$0")/.." && pwd)
program=$(realpath "${1:-$top/crates/gtrbacd/out/gtrbacd}")
[ $# -eq 0 ] || shift
if [ -z "${BENCH_FRONT_ALONE:-}" ]; then
    for tool in wrk nginx unshare; do
        command -v "$tool" >/dev/null || { echo "bench/front.sh: $tool is missing" >&2; exit 1; }
    done
    export BENCH_FRONT_ALONE=1
    exec unshare -n sh -c 'ip link set lo up && exec "$0" "$@"' "$0" "$program" "$@"
fi
folder=$(mktemp -d)
pids=
trap 'kill $pids 2>/dev/null || true; sleep 0.5; rm -rf "$folder"' EXIT
cd "$folder"

printf '%s\n' 'policy 1' 'role nurse' 'user eve' 'perm read-chart' 'enabled nurse' \
    'assigned eve nurse' 'granted read-chart nurse' >policy
printf '0123456789abcdef\n' >token
cat >post.lua <<'END'
wrk.method = "POST"
wrk.body = '{"subject": {"type": "user", "id": "alice@example.com"}, ' ..
    '"action": {"name": "read"}, "resource": {"type": "chart", "id": "123"}}'
wrk.headers["Content-Type"] = "application/json"
wrk.headers["Authorization"] = "Bearer 0123456789abcdef"
done = function(summary, latency, requests)
    local wrong = summary.errors.status + summary.errors.read + summary.errors.timeout
    io.write(string.format("%d %.0f %.2f %.2f %d\n", summary.requests,
        summary.requests / summary.duration * 1e6, latency:percentile(50) / 1000,
        latency:percentile(99) / 1000, wrong))
end
END

# tables FILE PORT [HOUSE]: HOUSE has lines for the house, of a front that knows shares
tables() {
    for kind in user caller; do
        [ -z "${3:-}" ] || echo "[shares.$kind]"
        [ -z "${3:-}" ] || printf '%s = 0\n' lines decisions sessions run
    done >"$1"
    cat >>"$1" <<END
[house.ward]
at = ["127.0.0.1:7743"]
links = 8
${3:-}
[[listen]]
house = "ward"
face = "authzen"
tcp = "127.0.0.1:$2"
token = "$folder/token"
url = "https://pdp.example"
subjects = { "alice@example.com" = "eve" }
roles = { eve = ["nurse"] }
END
}

serve() {
    rm -f gtrbacd.stop
    "$program" poll policy >log 2>/dev/null &
    server=$!
    pids="$pids $server"
}

spent() { cut -d' ' -f1 "/proc/$1/schedstat"; }

# one NAME PROCESS PORT CONNECTIONS
one() {
    before=$(spent "$2")
    told=$(wrk -t1 -c"$4" -d"${SECONDS_EACH:-2}s" -s post.lua \
        "http://127.0.0.1:$3/access/v1/evaluation" | tail -1)
    after=$(spent "$2")
    echo "$told" | awk -v name="$1" -v with="$4" -v spent="$((after - before))" \
        '{ printf "%-10s %3d connections %7d a second  p50 %7.2f  p99 %7.2f  %4d us  %d wrong\n",
           name, with, $2, $3, $4, $1 ? spent / 1000 / $1 : 0, $5 }'
}

serve
tables front.toml 8801 "server = \"uid:$(id -u)\"
reserve = 0"
/usr/bin/python3 "$top/contrib/gtrbac-front" front.toml 2>front.said &
pids="$pids $!"
fronts="contrib:$!:8801"
port=8802
for other in "$@"; do
    tables "front-$port.toml" "$port"
    /usr/bin/python3 "$other" "front-$port.toml" 2>"front-$port.said" &
    pids="$pids $!"
    fronts="$fronts other:$!:$port"
    port=$((port + 1))
done
head -c 170 /dev/zero | tr '\0' x >static
cat >nginx.conf <<END
daemon off; pid $folder/nginx.pid; worker_processes 1; error_log $folder/nginx.said;
events { worker_connections 1024; }
http { access_log off; keepalive_requests 1000000;
    server { listen 127.0.0.1:8800 backlog=1024; root $folder; error_page 405 =200 \$uri;
        location / { try_files /static =404; } } }
END
chmod 755 "$folder"
nginx -c "$folder/nginx.conf" 2>/dev/null &
pids="$pids $!"
for wait in $(seq 200); do
    ready=$(cat front*.said 2>/dev/null | grep -c -e ': ready' -e ': connected' || true)
    [ "$ready" -lt $((2 + 2 * $#)) ] || break
    sleep 0.2
done
sleep 1
echo "load: $(cut -d' ' -f1-3 /proc/loadavg), processors: $(nproc)"
for with in ${CONNECTIONS:-1 8 64}; do
    for round in $(seq "${ROUNDS:-3}"); do
        for front in $fronts; do
            name=${front%%:*}
            rest=${front#*:}
            one "$name" "${rest%%:*}" "${rest#*:}" "$with"
        done
        one nginx "$(pgrep -P "$(cat nginx.pid)" | head -1)" 8800 "$with"
    done
done
touch gtrbacd.stop
