# Firefox in the place of chromium: Debian has no driver for it, but it speaks Marionette itself, messages of LENGTH:JSON over a port. Sourced by .ci/page,
# which sets `work`, a folder open to all, and `fail`. Only what needs no input is run here.

start_firefox() {
    local home=$work/firefox as=()
    mkdir -p "$home/profile" || fail "no folder for Firefox"
    echo 'user_pref("marionette.port", 0);' >"$home/profile/user.js"
    if [ "$(id -u)" = 0 ]; then
        as=(setpriv --reuid=65534 --regid=65534 --clear-groups)
        chown -R 65534:65534 "$home"
    fi
    setsid "${as[@]}" env HOME="$home" TMPDIR="$home" XDG_RUNTIME_DIR="$home" firefox-esr --headless --marionette --profile "$home/profile" >"$work/driver" 2>&1 &
    driver=$!
    for _ in $(seq 1200); do
        [ ! -s "$home/profile/MarionetteActivePort" ] || break
        sleep 0.1
    done
    exec {marionette}<>"/dev/tcp/127.0.0.1/$(cat "$home/profile/MarionetteActivePort")" || fail "Firefox did not start"
    hear greeting
    say WebDriver:NewSession '{}'
    say WebDriver:SetTimeouts '{script: 120000}'
    say WebDriver:Navigate --arg url "file://$work/check.html" '{url: $url}'
}

# hear WHAT: a message, into $work/reply
hear() {
    local length
    IFS= read -r -t 300 -d : length <&"$marionette" || fail "$1: Firefox does not answer"
    head -c "$length" <&"$marionette" >"$work/reply"
}

# say COMMAND JQ..: a command, its arguments as JSON that jq makes; what it gives is left in $work/value
say() {
    local command=$1
    shift
    jq -n "$@" | jq -acj --arg command "$command" '[0, 1, $command, .]' >"$work/command"
    { printf '%s:' "$(wc -c <"$work/command")" && cat "$work/command"; } >&"$marionette"
    hear "$command"
    jq -c 'if .[2] then .[2].message | halt_error else .[3].value end' "$work/reply" >"$work/value" 2>"$work/error" || fail "$command: $(cat "$work/error")"
}

in_firefox() { say WebDriver:ExecuteScript --rawfile script "$1" --slurpfile args "$2" '{script: $script, args: $args[0]}'; }
