# What people do with the page, each through real input: keys, files that are chosen, files that are dropped. Sourced by .ci/page behind
# driver.sh.

files=$work/files
nothing="Nothing is checked yet: give a book and a paper."

# tells TEST LINE [KEY: VALUE]..: the page answers this line, and shows these (page/tests/seen.js)
tells() {
    local test=$1 due=$2 fact script
    shift 2
    quoted "$(<page/tests/seen.js)" && script=$json && quoted "$due"
    send execute/async "{\"script\": $script, \"args\": [$json]}"
    jq -r .value "$work/reply" >"$work/seen"
    for fact in "line: $due" "$@"; do
        grep -qxF -- "$fact" "$work/seen" || fail "$test: due: $fact
page: failed: $test: came: $(grep -F -- "${fact%%: *}: " "$work/seen" | cut -c 1-300)"
    done
}

make_files() {
    local hex
    mkdir "$files" "$files/folder.paper"
    cp examples/two-readings.* examples/two-readings-carl.paper examples/either-way-2.paper examples/either-way.book examples/deepest-paper* examples/contradiction.* "$files"
    head -c 9442 /dev/zero >"$files/long.book"
    head -c 60001 /dev/zero >"$files/long.paper"
    : >"$files/empty"
    truncate -s 200M "$files/sparse"
    printf '<img src=x onerror=page.broken()>\n\xe2\x80\xaecarl\xe2\x80\x8b\n%s\n' "$(head -c 10000 /dev/zero | tr '\0' a)" >"$files/hostile.names"
    printf 'anna\nbea\nanna\n' >"$files/twice.names"
    printf 'anna\nbea\n' >"$files/few.names"
    printf 'anna\r\n\r\ncarl\r\n' >"$files/gap.names"
    printf 'anna\n\xff\ncarl\n' >"$files/bytes.names"
    head -c 65537 /dev/zero | tr '\0' a >"$files/long.names"
    # The longest papers among the stored cases: one branch of 29,997 steps, and 511 branches.
    paste -d ' ' <(tr -d '\r' <crates/desk/stdin) crates/desk/stdout | awk -v to="$files/longest-" '
        $1 == "check" && length($3) == 120000 && $4 == "certain" { number += 1; print $2 >(to number ".book.hex"); print $3 >(to number ".paper.hex") }'
    for hex in "$files"/*.hex; do printf "$(sed 's/../\\x&/g' "$hex")" >"${hex%.hex}"; done
    chmod -R a+rX "$files"
}

# ---- 1. files chosen, dropped and pasted
# drop X Y FILE..: files of $files are dropped there
drop() {
    local where="\"x\": $1, \"y\": $2" dropped step
    shift 2
    dropped=$(printf ", \"$files/%s\"" "$@")
    for step in dragEnter dragOver drop; do
        devtools Input.dispatchDragEvent "{\"type\": \"$step\", $where, \"data\": {\"items\": [], \"files\": [${dropped#, }], \"dragOperationsMask\": 1}}"
    done
}

test_choosing() {
    tells start "$nothing" "book told: none yet"
    choose_file book "$files/two-readings.book"
    choose_file paper "$files/two-readings-carl.paper"
    tells choose "accepted: atom 2 is certain" "means: atom 2 holds in every reading of this book, and the book has a reading."
    choose_file names "$files/two-readings.names"
    tells "choose names" "accepted: atom 2 is certain" "names told: two-readings.names, 3 names" "paper told: two-readings-carl.paper, 18 bytes" \
        "means: carl_made_it_fail (2) holds in every reading of this book, and the book has a reading." "lists: The lists after byte 9"
    click '#paper-remove'
    tells remove "$nothing" "paper told: none yet"
}

test_dropping() {
    drop 640 30 two-readings.names either-way-2.paper two-readings.book
    tells "drop three" "refused 25 at 2: the step's condition does not hold" "names told: two-readings.names, 3 names" "names: 0" \
        "means: The step at byte 2 ends a case, but no rule is both on and off, and no rule that is on has the claimed atom 2 as head."
    drop 640 30 two-readings.book either-way.book
    tells "drop two books" "refused 25 at 2: the step's condition does not hold" "dropped: These are two books; give one."
    drop 640 30 empty
    tells "drop what is unknown" "refused 25 at 2: the step's condition does not hold" \
        "dropped: empty: this is neither a book nor a paper by its last bytes; choose it as what it is."
    drop 640 150 two-readings-carl.paper
    tells "drop on a box" "accepted: atom 2 is certain" "dropped: "
    drop 640 150 folder.paper
    tells "drop a folder" "$nothing" "paper message: folder.paper: it cannot be read."
}

test_pasting() {
    local wrong
    click '#paper-paste'
    keys "53 00 41 02 45 | 41 01 41 03 45 00 02 02 02 0a 00 50 46" Tab Enter
    tells paste "accepted: atom 2 is certain" "paper told: pasted, 18 bytes" "focus: paper-paste"
    keys Enter "check 0000000000010103005242 41004500000103005046" Tab Enter
    tells "paste a line" "accepted: atom 0 is certain" "names message: The list is not used: it has 3 lines, the book has 1 atom."
    keys Enter Tab Enter
    tells "paste nothing" "accepted: atom 0 is certain" "paper message: Nothing was pasted."
    type_into '#paper-text' 530
    keys Tab Enter
    tells "paste half a byte" "accepted: atom 0 is certain" "paper message: The last byte has one digit only."
    type_into '#paper-text' g
    keys Tab Enter
    tells "paste other signs" "accepted: atom 0 is certain" "paper message: Character 4, g, is no hexadecimal digit."
    run "document.querySelector('#paper-text').value = '0'.repeat(400001)"
    keys Enter
    tells "paste too much" "accepted: atom 0 is certain" "paper message: The text is longer than any paper."
    run "document.querySelector('#paper-text').value = ''"
    click '#paper-paste'
}

# ---- 2. each refusal: its line, the byte that is framed with its accessible name, what is the matter, and nobody's name
test_refusals() {
    local number matter page command book paper line place
    run "document.querySelector('#book-paste').focus()"
    while IFS='|' read -r number matter; do
        page=$work/manual/$number.md
        read -r command book paper <<<"$(grep -E '^    (check|readings) ' "$page")"
        line=$(sed -n 's/^    \(refused [0-9]* at .*\)/\1/p' "$page")
        keys Enter "check $book ${paper:--}" Tab Enter
        tells "$number" "$line" "means: $matter" "names: 0" "head: ✗ Refused"
        place=$(sed -n 's/^place: //p' "$work/seen" | sed 's/, ..,/,/')
        case $number in
            01 | 20) [ -z "$place" ] ;;
            *) [ "$place" = "byte $(sed 's/.* at \([0-9]*\): .*/\1/' <<<"$line"), the place of the refusal" ] ;;
        esac || fail "$number: the byte framed is: $place"
    done <<'END'
01|It has 0 bytes.
02|Its last two bytes are 00 00.
03|By the trailer the index starts at byte 256 and has 0 entries, which makes 262 bytes; it has 6.
04|The last rule ended at byte 0; the index starts at byte 1.
05|Rule 0 starts at byte 0, and 0 bytes are left before the index.
06|Byte 0 has atom 0; the book has no atoms.
07|Byte 5 has atom 0 behind atom 2.
20|It has 0 bytes.
21|Its last two bytes are 50 01.
22|By the trailer the witness starts at byte 21251 and has 1 rule, which makes 21,258 bytes; it has 10.
23|It claims atom 0; the book has no atoms.
24|A step is due, and the witness starts here: the steps have not come to an end.
25|The step at byte 0 ends a case, but no rule is both on and off, and no rule that is on has the claimed atom 0 as head.
26|The last case ended before byte 3; the witness starts at byte 5; bytes 3 to 4 belong to neither.
27|Byte 4 lists rule 1; the book's rules are 0 to 0.
END
    # A fault behind its place: the list of the 55 at byte 2 does not ascend.
    keys Enter "check 000100010101000002000003010102000000040008000b00040410005242 4102550201004103450203030209005046" Tab Enter
    tells "a fault behind its place" "refused 24 at 2: the step is malformed, or it passes into the witness" "means: The list does not ascend: byte 5 has 0 behind 1." \
        "also: byte 5, 00, what is wrong" "lists: The lists before byte 2" "aside: Not looked at: bytes 3 to 8."
}

# ---- 3. with keys alone, from the first Tab to an unfolded case and another step's lists; each stop has a ring
test_keyboard() {
    open_page
    in_chromium page/tests/focus.js
    # The link to the answer, three inputs of two controls each (nothing can be removed yet), the examples, Show.
    keys Tab Tab Tab Tab Tab Tab Tab Tab Tab Enter
    tells "keyboard, example" "accepted: atom 2 is certain" "focus: show-example"
    # Right book, unfold all, fold all; then the byte to go to, Go, the first step and the first case.
    keys Tab Tab Tab Enter
    tells "keyboard, fold all" "accepted: atom 2 is certain" "cases: 0" "focus: fold"
    keys Tab Tab Tab Tab Enter Tab Enter
    tells "keyboard, a case and a step" "accepted: atom 2 is certain" "cases: 1" "lists: The lists after byte 2" "chosen: byte 2"
    ask '[...tabStops.filter(stop => !stop.ring).map(stop => stop.name), tabStops.length < 15 ? "hardly any stop" : ""].join("")'
    [ "$said" = "" ] || fail "keyboard: no ring: $said"
}

# finds_nothing TEST FILE: a script that looks at the page as it is finds nothing wrong
finds_nothing() {
    run "$(<"page/tests/$2.js")"
    grep -qF '"wrong":[]' "$work/reply" || fail "$1: $(jq -r '.value.wrong[]' "$work/reply")"
}

# show BOOK PAPER [NAMES]: files of $files are chosen
show() {
    choose_file book "$files/$1"
    choose_file paper "$files/$2"
    [ -z "${3:-}" ] || choose_file names "$files/$3"
}

# ---- 4, 5. small screens, sizes and contrast, on each of the screens: start, accepted, refused at a step, in the trailer, in the book
test_looks() {
    local scheme
    open_page
    screen_of 320 640
    click '#book-paste'
    finds_nothing "320 px, start" fit
    show two-readings.book two-readings-carl.paper hostile.names
    tells "320 px" "accepted: atom 2 is certain"
    look_closely "accepted"
    show two-readings.book either-way-2.paper two-readings.names
    tells "320 px" "refused 25 at 2: the step's condition does not hold"
    look_closely "refused at a step"
    show two-readings.book two-readings.book
    tells "320 px" "refused 21 at 28: the paper's last two bytes are none of 50 46, 50 43 and 50 4e" "means: Its last two bytes are 52 42. These are a book's: is it the book?"
    look_closely "refused in the trailer"
    show two-readings-carl.paper two-readings.book
    tells "320 px" "refused 2 at 16: the book's last two bytes are not 52 42" "means: Its last two bytes are 50 46. These are a paper's: is it the paper?"
    look_closely "refused in the book"
}

look_closely() {
    local scheme
    finds_nothing "320 px, $1" fit
    for scheme in light dark; do
        media "$scheme"
        finds_nothing "contrast, $scheme, $1" contrast
    done
}

# ---- 6. print
test_print() {
    screen_of 1280 900
    show two-readings.book two-readings-carl.paper two-readings.names
    tells print "accepted: atom 2 is certain"
    click '.case summary'
    tells "print, a case folded" "accepted: atom 2 is certain" "cases: 1"
    media light print
    finds_nothing print printed
    media light
}

# ---- 7. names from anyone
test_names() {
    local list
    choose_file names "$files/hostile.names"
    tells "hostile names" "accepted: atom 2 is certain" "pictures: 0" "names told: hostile.names, 3 names" \
        "means: $(head -c 80 /dev/zero | tr '\0' a)… (2) holds in every reading of this book, and the book has a reading." \
        "reading: The reading: <img src=x onerror=page.broken()> (0) and $(head -c 80 /dev/zero | tr '\0' a)… (2)."
    ask 'document.querySelectorAll("#rules td")[2].textContent'
    [ "$said" = '\u{202e}carl\u{200b} (1) if not <img src=x onerror=page.broken()> (0)' ] || fail "names: what turns the writing round is not told"
    for list in "twice:lines 1 and 3 are the same" "few:it has 2 lines, the book has 3 atoms" "gap:line 2 is empty" "bytes:it is no UTF-8 text" "long:it is longer than 65,536 bytes"; do
        choose_file names "$files/${list%%:*}.names"
        tells "names: $list" "accepted: atom 2 is certain" "names: 0" "names message: The list is not used: ${list#*:}."
    done
}

# ---- 8. sizes
test_sizes() {
    show long.book two-readings-carl.paper
    tells "9,442 bytes" "refused 1 at 0: the book has under 6 or over 9,441 bytes" "means: It has over 9,441 bytes."
    show sparse long.paper
    tells "200 MB" "refused 1 at 0: the book has under 6 or over 9,441 bytes" "book told: sparse, over 9,441 bytes"
    choose_file book "$files/two-readings.book"
    tells "60,001 bytes" "refused 20 at 0: the paper has under 6 or over 60,000 bytes" "means: It has over 60,000 bytes."
    choose_file paper "$files/empty"
    tells "an empty file" "refused 20 at 0: the paper has under 6 or over 60,000 bytes" "means: It has 0 bytes."
}

# ---- 9. no old answer beside a new file
test_changes() {
    show two-readings.book two-readings-carl.paper
    tells changes "accepted: atom 2 is certain"
    # Reading the next file waits until it is let go: meanwhile there is no answer, and a later choice counts.
    run 'globalThis.kept = Blob.prototype.arrayBuffer, Blob.prototype.arrayBuffer = function () { return new Promise(go => { globalThis.letGo = go; }).then(() => kept.call(this)); }'
    choose_file paper "$files/two-readings.book"
    tells "a file not yet read" "$nothing"
    run 'Blob.prototype.arrayBuffer = kept'
    choose_file paper "$files/either-way-2.paper"
    tells "the later choice" "refused 25 at 2: the step's condition does not hold"
    run 'letGo()'
    tells "the later choice stays" "refused 25 at 2: the step's condition does not hold" "paper told: either-way-2.paper, 24 bytes"
    run 'globalThis.kept = Uint8Array.prototype.subarray, Uint8Array.prototype.subarray = () => { throw new Error("broken"); }'
    choose_file paper "$files/two-readings-carl.paper"
    tells "a broken browser" "The page could not finish. This says nothing about anyone. Use the program checking." "lists: " "names: 0"
    run 'Uint8Array.prototype.subarray = kept'
}

# ---- 10. the longest papers and the deepest one
# cpu_time: the page's own working time so far, in milliseconds, is left in `said`: a clock on the wall would measure the machine's other work
cpu_time() {
    devtools Performance.getMetrics '{}'
    said=$(jq '.value.metrics[] | select(.name == "TaskDuration").value * 1000 | floor' "$work/reply")
}

# shown_in_time BOOK PAPER: chosen, and shown and laid out within two seconds; then unfolded
shown_in_time() {
    local before
    choose_file book "$files/$1"
    cpu_time
    before=$said
    choose_file paper "$files/$2"
    tells "$2" "accepted: atom 0 is certain"
    cpu_time
    [ $((said - before)) -lt 2000 ] || fail "$2: shown after $((said - before)) ms"
    click '#unfold'
}

test_long() {
    devtools Performance.enable '{"timeDomain": "threadTicks"}'
    shown_in_time longest-1.book longest-1.paper
    tells "one branch" "accepted: atom 0 is certain" "told: The first 2,000 of 29,997 steps are unfolded."
    [ "$(sed -n 's/^elements: //p' "$work/seen")" -lt 60000 ] || fail "one branch: too many elements"
    type_into '#go-byte' 59990
    keys Enter
    tells "go to byte" "accepted: atom 0 is certain" "lists: The lists after byte 59990" "chosen: byte 59990"
    shown_in_time longest-2.book longest-2.paper
    tells "511 branches" "accepted: atom 0 is certain"
    [ "$(sed -n 's/^elements: //p' "$work/seen")" -lt 60000 ] || fail "511 branches: too many elements"
    shown_in_time deepest-paper.book deepest-paper-0.paper
    tells "the deepest paper" "accepted: atom 0 is certain" "cases: 508" "told: "
    ask '[...document.querySelectorAll(".step")].filter(row => row.checkVisibility()).length === page.check(given.book.bytes, given.paper.bytes).steps.length'
    [ "$said" = true ] || fail "the deepest paper: not every row is seen"
}

# ---- 11, 12. no request, no message, nothing stored; every control has a role and a name of its own; the policy holds
test_quiet() {
    send se/log '{"type": "performance"}'
    jq -r '.value[].message | fromjson.message | select(.method == "Network.requestWillBeSent") | .params.request.url' "$work/reply" | sort -u >"$work/requests"
    [ "$(cat "$work/requests")" = "file://$work/check.html" ] || fail "requests: $(cat "$work/requests")"
    send se/log '{"type": "browser"}'
    jq -r '.value[].message' "$work/reply" | grep -v 'Error: broken' >"$work/messages"
    [ ! -s "$work/messages" ] || fail "the browser's log: $(head -n 3 "$work/messages")"
    devtools Storage.getUsageAndQuota "{\"origin\": \"file://\"}"
    [ "$(jq .value.usage "$work/reply")" = 0 ] || fail "something is stored"
}

# A paper that there is no reading: no witness is shown, and of one that has an atom or a witness what is wrong.
test_no_reading() {
    show contradiction.book contradiction.paper contradiction.names
    tells "no reading" "accepted: the book has no reading" "head: ✓ Accepted: no reading" "names: 0" "reading: " "steps: 2 cases: 2 cannot be." \
        "means: This book has no reading: it contradicts itself. From it nobody is named and nobody is cleared."
    click '#paper-paste'
    keys "check 000001000000010104005242 530042004541004501000800504e" Tab Enter
    tells "no reading, an atom" "refused 23 at 8: the book has no such atom as the paper claims" \
        "means: It is a paper that the book has no reading, and claims atom 1; such a paper claims no atom: the byte is 00."
    keys Enter "check 000001000000010104005242 53004200454100450000010800504e" Tab Enter
    tells "no reading, a witness" "refused 27 at 8: the witness is wrong" "place: byte 8, 00, the place of the refusal" \
        "means: It is a paper that the book has no reading, and has a witness of 1 rule; such a paper has none."
}

test_controls() {
    show two-readings.book two-readings-carl.paper two-readings.names
    tells controls "accepted: atom 2 is certain"
    devtools Accessibility.getFullAXTree '{}'
    jq -r '.value.nodes[] | select(.ignored | not) | select(.role.value | IN("button", "combobox", "textbox", "DisclosureTriangle", "link")) | "\(.role.value): \(.name.value)"' "$work/reply" | sort >"$work/controls"
    [ "$(wc -l <"$work/controls")" -ge 20 ] || fail "controls: hardly any: $(tr '\n' ',' <"$work/controls")"
    ! grep -n ': $' "$work/controls" || fail "controls: one has no name"
    [ "$(uniq -d "$work/controls")" = "" ] || fail "controls: twice the same: $(uniq -d "$work/controls")"
}

test_forbidden() {
    open_page
    quoted "$(<page/tests/policy.js)" && send execute/async "{\"script\": $json, \"args\": []}"
    [ "$(jq '.value.wrong | length' "$work/reply")" = 0 ] || fail "the policy: $(jq -r '.value.wrong[]' "$work/reply")"
}
