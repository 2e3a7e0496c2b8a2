# The browser of the tests: Debian's chromium behind its driver, spoken to with curl and jq. Sourced by .ci/page, which sets `work`, a
# folder open to all with a copy of the page, and `fail`.

# start_driver: a driver without a screen, as nobody where this runs as root; its port and the session are left in `session`
start_driver() {
    local home=$work/home port reply as=()
    mkdir "$home" || fail "no folder for the browser"
    if [ "$(id -u)" = 0 ]; then
        as=(setpriv --reuid=65534 --regid=65534 --clear-groups)
        chown 65534:65534 "$home"
    fi
    : >"$work/driver"
    setsid "${as[@]}" env HOME="$home" TMPDIR="$home" XDG_RUNTIME_DIR="$home" DBUS_SESSION_BUS_ADDRESS=/dev/null \
        chromedriver --port=0 >"$work/driver" 2>&1 &
    driver=$!
    for _ in $(seq 600); do
        port=$(sed -n 's/.*started successfully on port \([0-9]*\).*/\1/p' "$work/driver")
        [ -z "$port" ] || break
        sleep 0.1
    done
    [ -n "$port" ] || fail "the driver did not start"
    driver_at=http://127.0.0.1:$port
    # The page is ours and without a network, so the browser needs no sandbox; root and containers have none.
    reply=$(curl -sS -m 300 -d '{"capabilities": {"alwaysMatch": {"goog:chromeOptions": {"args": ["--headless", "--no-sandbox", "--disable-dev-shm-usage",
        "--window-size=1280,900"]}, "goog:loggingPrefs": {"browser": "ALL", "performance": "ALL"}, "timeouts": {"script": 120000}}}}' "$driver_at/session")
    session=$driver_at/session/$(jq -r .value.sessionId <<<"$reply")
    [[ $session != */null ]] || fail "the browser did not start: $(cut -c 1-300 <<<"$reply")"
}

# The whole group: ending the driver alone leaves the browser's processes. Until they are gone they write to their folder.
stop_driver() {
    [ -n "${driver:-}" ] || return 0
    kill -- -"$driver" 2>/dev/null
    for _ in $(seq 100); do
        kill -0 -- -"$driver" 2>/dev/null || break
        sleep 0.05
    done
    driver=
}

# quoted TEXT: the text as JSON, left in `json`. It stands in for jq, which takes longer to start than the driver to answer.
quoted() {
    json=${1//\\/\\\\}
    json=${json//\"/\\\"}
    json=\"${json//$'\n'/\\n}\"
}

# send WHERE [JSON]: a command to the session, its arguments in $work/command where none are given; the answer is left in $work/reply. No function here
# is part of a pipe or a $(..): there `fail` would end that part only.
send() {
    [ -z "${2:-}" ] || printf '%s' "$2" >"$work/command"
    curl -sS -m 300 --data-binary @"$work/command" "$session/$1" >"$work/reply" || fail "$1: the driver does not answer"
    [[ $(head -c 16 "$work/reply") != '{"value":{"error' ]] || fail "$1: $(jq -r '.value | "\(.error): \(.message[:300])"' "$work/reply")"
}

open_page() {
    elements=()
    send url "{\"url\": \"file://$work/check.html\"}"
}
devtools() { send goog/cdp/execute "{\"cmd\": \"$1\", \"params\": $2}"; }

# in_chromium FILE [ARGUMENTS]: what a script of page/tests gives is left in $work/value; its arguments are a JSON array in a file
in_chromium() {
    if [ -n "${2:-}" ]; then
        jq -n --rawfile script "$1" --slurpfile args "$2" '{script: $script, args: $args[0]}' >"$work/command"
        send execute/sync
    else
        run "$(<"$1")"
    fi
    jq -c .value "$work/reply" >"$work/value"
}

# ask CODE: the text that a line of JavaScript gives is left in `said`; run SCRIPT: for what it does
ask() {
    run "return $1"
    said=$(jq -r .value "$work/reply")
}
run() { quoted "$1" && send execute/sync "{\"script\": $json, \"args\": []}"; }

# The driver's name for what a selector finds, kept as long as the page is.
declare -A elements=()
find_element() {
    [ -z "${elements[$1]:-}" ] || return 0
    send element "{\"using\": \"css selector\", \"value\": \"$1\"}"
    elements[$1]=$(sed 's/.*:"\([^"]*\)"}}$/\1/' "$work/reply")
}
type_into() { find_element "$1" && quoted "$2" && send "element/${elements[$1]}/value" "{\"text\": $json}"; }
click() { find_element "$1" && send "element/${elements[$1]}/click" '{}'; }
choose_file() { type_into "#$1-file" "$2"; }

# keys KEY|TEXT..: real keys; Tab and Enter are pressed, all else is typed sign by sign
keys() {
    local word sign actions=
    for word; do
        case $word in
            Tab) actions+=$(pressed '\\ue004') ;;
            Enter) actions+=$(pressed '\\ue007') ;;
            *) while IFS= read -r -n 1 sign; do [ -z "$sign" ] || actions+=$(pressed "$sign"); done <<<"$word" ;;
        esac
    done
    send actions "{\"actions\": [{\"type\": \"key\", \"id\": \"keys\", \"actions\": [${actions%,}]}]}"
}
pressed() { printf '{"type": "keyDown", "value": "%b"}, {"type": "keyUp", "value": "%b"},' "$1" "$1"; }

# screen_of WIDTH HEIGHT, media SCHEME [MEDIUM]
screen_of() { devtools Emulation.setDeviceMetricsOverride "{\"width\": $1, \"height\": $2, \"deviceScaleFactor\": 1, \"mobile\": false}"; }
media() { devtools Emulation.setEmulatedMedia "{\"media\": \"${2:-}\", \"features\": [{\"name\": \"prefers-color-scheme\", \"value\": \"$1\"}]}"; }
