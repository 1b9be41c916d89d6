#!/usr/bin/env bash
# Tries examples/web: its modules under node, and its page in a headless browser, where they are on this machine.
#
#   trials/web/try.sh FOLDER
#
# FOLDER is what trials/web/build.sh left. Says what is wrong, what isn't on this machine, and last how many rows passed
# and failed. With SHOTS=OTHER, that folder gets pictures of the page at 420 and 1400 pixels.
set -u
case " $* " in *" --help "* | *" -h "*) sed -n '2,/^[^#]/s/^# \{0,1\}//p' "$0"; exit 0 ;; esac
[ $# = 1 ] && [ -f "$1/pm.wasm" ] || { echo "try.sh: give the folder that trials/web/build.sh left" >&2; exit 2; }
folder=$(realpath "$1")
cd "$(dirname "$0")"
work=$(mktemp -d)
trap 'rm -rf "$work"; [ -z "${server-}" ] || kill "$server" 2> /dev/null' EXIT
. ../../tools/tally.sh
if command -v node > /dev/null; then
    node --no-warnings --experimental-wasm-memory64 rows.mjs "$folder" > "$work/rows" 2> "$work/log"
    grep -v ' passed, ' "$work/rows"
    if tail -1 "$work/rows" | grep -qx '[0-9]* passed, [0-9]* failed'; then
        read -r passed _ failed _ <<< "$(tail -1 "$work/rows" | tr -d ,)"
    else
        tell 1; echo "the rows under node end before their last line:"; grep -m 1 'Error' "$work/log"
    fi
else
    echo "node: not on this machine: nodejs"
fi
browser=$(command -v chromium || command -v google-chrome || true)
if [ -n "$browser" ] && command -v python3 > /dev/null; then
    # The folder's files, with pages that hold the page in a frame of a width, and say what sticks out of it.
    mkdir -p "$work/served"
    ln -s "$folder"/* "$work/served/"
    for wide in 360 420 1400; do
        cat > "$work/served/frame$wide.html" << END
<iframe src="index.html" style="width: ${wide}px; height: 1000px; border: 0"></iframe>
<script>
    addEventListener("load", () => setTimeout(() => {
        const held = document.querySelector("iframe").contentDocument;
        const out = [...held.querySelectorAll("html, body, div, table, tr, p")].filter((it) => it.scrollWidth > it.clientWidth + 1 && it.clientWidth);
        document.title = held.querySelector("td") ? "out: " + out.map((it) => it.tagName).join(" ") : "no transfers";
    }, 2000));
</script>
END
    done
    : > "$work/server"
    python3 -u -m http.server --bind 127.0.0.1 -d "$work/served" 0 > "$work/server" 2>&1 &
    server=$!
    for _ in $(seq 50); do grep -q 'http://' "$work/server" && break; sleep 0.1; done
    page=$(grep -o 'http://127.0.0.1:[0-9]*' "$work/server" | head -1)
    timeout 60 "$browser" --headless --no-sandbox --disable-gpu --virtual-time-budget=5000 --dump-dom "$page/index.html" \
        > "$work/page" 2> "$work/log"
    if grep -q 'data-shown="done false true true"' "$work/page"; then
        tell 0
    else
        tell 1; echo "the page doesn't show its first example:"; tail -3 "$work/log"
    fi
    for words in 'VOUT_COMMAND of output 1: 3.300 V (34CDh)' 'VOUT_COMMAND, by PAGE: 3.300 V (34CDh)' '3.300 V (34CDh) confirmed' \
        'answered 3.300 V (34CDh)'; do
        if grep -qF "$words" "$work/page"; then tell 0; else tell 1; echo "the page doesn't say: $words"; fi
    done
    if ! grep -q 'id="why"' "$work/page"; then tell 0; else tell 1; echo "the page still says why nothing is there"; fi
    for wide in 360 420 1400; do
        timeout 60 "$browser" --headless --no-sandbox --disable-gpu --virtual-time-budget=5000 --dump-dom "$page/frame$wide.html" \
            > "$work/frame" 2> "$work/log"
        out=$(grep -o '<title>.*</title>' "$work/frame")
        if [ "$out" = "<title>out: </title>" ]; then tell 0; else tell 1; echo "at $wide pixels: ${out:-nothing is shown}"; fi
    done
    for wide in 420 1400; do
        timeout 60 "$browser" --headless --no-sandbox --disable-gpu --hide-scrollbars --window-size=$wide,1400 --virtual-time-budget=5000 \
            --screenshot="$work/$wide.png" "$page/index.html" > /dev/null 2> "$work/log"
        [ -z "${SHOTS-}" ] || cp "$work/$wide.png" "$SHOTS/"
        if [ -s "$work/$wide.png" ]; then tell 0; else tell 1; echo "no picture of the page at $wide pixels"; fi
    done
    if grep -q '<div class="verdict bad">It says: success. 3.3 V reached output 0.' "$work/page"; then
        tell 0
    else
        tell 1; echo "the page doesn't say what went wrong"
    fi
else
    echo "a browser: not on this machine: chromium"
fi
end_tally
