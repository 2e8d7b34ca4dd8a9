#!/bin/sh
# Looks at the pages that `taskscope page` writes, as a strict parser and a browser do.
#
# Usage: tests/page.sh            tries the pages.
#        tests/page.sh --picture  makes docs/page.png anew, of examples/service.html, and tries nothing. It wants `chromium` and `pngquant`.
#
# The frame is what frame/make.py writes, and the scripts of the service and of the long tail are what examples/service.py and
# examples/long-tail.py do. Of the page of each example, which
# tests/examples.sh compares byte for byte with what the program writes, tests/page/check_page.py reads the text as HTML and
# compares its numbers with the example's stream; so it does with pages of services at random, whose closed tasks leave, and with
# that of a crowd, which has more places than a page shows. Pages of two streams are read by tests/page/check_changes.py. In a
# browser tests/page/try_script.py sorts and filters the service's page and the crowd's.
#
# The parser is Debian's python3-html5lib, the browser its chromium. Where one is missing it is installed by apt-get; where it
# can't be, that is said and its steps are skipped, or with CI=true it is a failure. TASKSCOPE may name another program than
# `./taskscope`.
#
# Its last line is `N passed, M failed`, and its status 1 where M isn't 0.

root=$(CDPATH= cd -P -- "$(dirname -- "$0")/.." && pwd) || exit 2
examples=$root/examples
picture=$root/docs/page.png
. "$root/tests/steps.sh"

# A screenshot of a page. The browser's profile is thrown away, since it fills the disk.
shoot() {
    chromium --headless=new --no-sandbox --disable-gpu --disable-dev-shm-usage --hide-scrollbars --user-data-dir="$work/profile" \
        --blink-settings=preferredColorScheme=1 --window-size="$3" --screenshot="$2" "file://$1" > "$work/said" 2>&1
    rm -rf "$work/profile"
    [ -s "$2" ]
}

is_small() {
    [ -s "$1" ] && [ "$(wc -c < "$1")" -le 150000 ]
}

if [ "$1" = --picture ]; then
    shoot "$examples/service.html" "$work/page.png" 1440,960 && pngquant --force --output "$picture" 256 "$work/page.png" && is_small "$picture"
    exit
fi

step "the frame is what its script writes" python3 "$root/crates/tk_page/frame/make.py" --check
step "the service's script is what its script writes" python3 "$examples/service.py" --check
step "the long tail's script is what its script writes" python3 "$examples/long-tail.py" --check
step "the picture has at most 150 kB" is_small "$picture"
step "the colours have the contrast that people need" python3 "$root/tests/page/check_contrast.py" "$root/crates/tk_page/frame/page.css"

# A service in which chance falls as this number says, and whose closed tasks leave: its stream and its page.
make_service() {
    { echo 'retention 3000000000' && python3 "$examples/service.py" --seed "$1"; } > "$work/script" &&
        "$program" run "$work/script" > "$work/stream" && "$program" page "$work/stream" > "$work/page"
}

is_page_of_service() {
    make_service "$1" && /usr/bin/python3 "$root/tests/page/check_page.py" "$work/page" "$work/stream"
}

# A stream of a thousand places, and its page.
make_crowd() {
    PYTHONPATH=$root/bench PYTHONDONTWRITEBYTECODE=1 python3 -c 'import sys, commands; commands.write_stream(sys.stdout, 1000, 3, 100)' > "$1" &&
        "$program" page "$1" > "$2"
}

# Debian's python has Debian's packages.
if package /usr/lib/python3/dist-packages/html5lib python3-html5lib; then
    for stream in "$root"/tests/examples/*.stream; do
        name=$(basename "$stream" .stream)
        page=$root/tests/examples/$name.html
        [ "$name" = service ] && page=$examples/service.html
        step "$name, as a parser reads its page" /usr/bin/python3 "$root/tests/page/check_page.py" "$page" "$stream"
    done
    for seed in 1 2 3 4 5 6 7 8; do
        step "a service at random, by seed $seed, as a parser reads its page" is_page_of_service "$seed"
    done
    step "pages of two streams, as a parser reads them" /usr/bin/python3 "$root/tests/page/check_changes.py" "$program" 1 "${COMPARED_PAIRS:-40}"
    step "the crowd's page is made" make_crowd "$work/crowd" "$work/crowd.html"
    step "the crowd's page, as a parser reads it" /usr/bin/python3 "$root/tests/page/check_page.py" "$work/crowd.html" "$work/crowd"
fi

if package chromium chromium; then
    step "the service's page, sorted and filtered in a browser" "$root/tests/page/try_script.py" "$examples/service.html"
    make_crowd "$work/crowd" "$work/crowd.html"
    step "the crowd's page, sorted and filtered in a browser" "$root/tests/page/try_script.py" "$work/crowd.html"
    step "the service's page, drawn by a browser" shoot "$examples/service.html" "$work/page.png" 1280,900
fi

finish
