#!/bin/sh
# Looks at the numbers that `taskscope metrics` writes, as Prometheus does.
#
# Usage: tests/metrics.sh. TASKSCOPE may name another program than `./taskscope`.
#
# Of each example's stream, of services at random, whose closed tasks leave, and of random streams, with histograms and without,
# the numbers are those that tests/metrics/plain_metrics.py reckons, byte for byte, with an end of series and without, on the
# output and in a file that is kept while a stream comes, and promtool finds no fault in them. A node exporter on the loopback
# reads them from a file, a Prometheus scrapes it, and what it answers to a query is what the report says. promtool checks
# docs/alerts.yml, and that of a hang these alerts name the culprit. docs/dashboard.json has what Grafana needs, and the
# Prometheus takes its queries. A hang is played in real time, and an Alertmanager lets the culprit's alert through and no
# victim's.
#
# promtool and Prometheus are Debian's prometheus, the node exporter its prometheus-node-exporter, the Alertmanager its
# prometheus-alertmanager. Where they are missing they are installed by apt-get; where they can't be, that is said and their steps
# skipped, or with CI=true it is a failure.
#
# Its last line is `N passed, M failed`, and its status 1 where M isn't 0.

root=$(CDPATH= cd -P -- "$(dirname -- "$0")/.." && pwd) || exit 2
examples=$root/examples
. "$root/tests/steps.sh"
trap 'stop_servers; rm -rf "$work"' EXIT

plain() {
    python3 "$root/tests/metrics/plain_metrics.py" "$@"
}

are_numbers_of() {
    for by in name id place; do
        "$program" metrics --by "$by" "$1" > "$work/numbers" && plain --by "$by" "$1" > "$work/plain" && cmp "$work/numbers" "$work/plain" || return 1
    done
}

# So are those with an end of series, however few there are.
are_numbers_of_few() {
    for by in name id place; do
        for series in 1 2 5; do
            "$program" metrics --by "$by" --series "$series" "$1" > "$work/numbers" && plain --by "$by" --series "$series" "$1" > "$work/plain" &&
                cmp "$work/numbers" "$work/plain" || return 1
        done
    done
}

# With no more labels than there may be, the numbers are those without an end, but for the one that says how many tasks have no series.
are_all_of_many() {
    "$program" metrics --by place --series 1000 "$1" | grep -v taskscope_other_tasks > "$work/numbers" && "$program" metrics --by place "$1" > "$work/plain" &&
        cmp "$work/numbers" "$work/plain"
}

# A file has the numbers of the whole stream, nothing is written beside, and no half is left.
are_kept() {
    rm -rf "$work/kept" && mkdir "$work/kept" && "$program" metrics --to "$work/kept/tasks.prom" "$1" > "$work/beside" &&
        plain "$1" > "$work/plain" && cmp "$work/kept/tasks.prom" "$work/plain" && [ ! -s "$work/beside" ] && [ "$(ls "$work/kept")" = tasks.prom ]
}

# Waits until a file has the numbers of so many lines of a stream, for up to 10 seconds.
has_lines() {
    head -n "$2" "$1" > "$work/front" && plain "$work/front" > "$work/wanted" || return 1
    for try in $(seq 100); do
        cmp -s "$3" "$work/wanted" && return 0
        sleep 0.1
    done
    diff "$3" "$work/wanted"
    return 1
}

# keep_every SECONDS: numbers of a stream that the test writes line by line to descriptor 4.
keep_every() {
    stream=$root/tests/examples/service.stream
    rm -rf "$work/kept" && mkdir "$work/kept" && mkfifo "$work/kept/pipe" || return 1
    "$program" metrics --to "$work/kept/tasks.prom" --every "$1" < "$work/kept/pipe" &
    reader=$!
    exec 4> "$work/kept/pipe"
}

# ends_with_lines COUNT: the stream ends, the program with it, and the numbers left are those of its first COUNT lines.
ends_with_lines() {
    exec 4>&-
    wait "$reader" && has_lines "$stream" "$1" "$work/kept/tasks.prom"
}

# While a stream comes its numbers are kept up to it, and no more often than is asked for; a reader that looks all the time finds
# them whole.
kept_while_it_comes() {
    keep_every 0 || return 1
    head -n 1 "$stream" >&4 && has_lines "$stream" 1 "$work/kept/tasks.prom" &&
        sed -n 2p "$stream" >&4 && has_lines "$stream" 2 "$work/kept/tasks.prom"
    came=$?
    for line in $(seq 3 60); do
        sed -n "${line}p" "$stream" >&4
        [ "$(tail -n 1 "$work/kept/tasks.prom")" = '# EOF' ] || came=1
    done
    ends_with_lines 60 && [ "$came" -eq 0 ]
}

# Numbers are put at once, and then only at the end of a stream that has come before it is time again.
kept_no_more_often() {
    keep_every 600 || return 1
    head -n 1 "$stream" >&4 && has_lines "$stream" 1 "$work/kept/tasks.prom" && sed -n 2,5p "$stream" >&4 && sleep 0.5 &&
        has_lines "$stream" 1 "$work/kept/tasks.prom"
    came=$?
    ends_with_lines 5 && [ "$came" -eq 0 ]
}

# A file that grows is followed.
kept_of_a_file_that_grows() {
    stream=$root/tests/examples/service.stream
    rm -rf "$work/kept" && mkdir "$work/kept" && head -n 1 "$stream" > "$work/kept/stream" || return 1
    "$program" metrics --to "$work/kept/tasks.prom" --every 0 --follow "$work/kept/stream" &
    reader=$!
    has_lines "$stream" 1 "$work/kept/tasks.prom" && sed -n 2,4p "$stream" >> "$work/kept/stream" && has_lines "$stream" 4 "$work/kept/tasks.prom"
    came=$?
    kill "$reader" && wait "$reader" 2> /dev/null
    [ "$came" -eq 0 ]
}

# With the file that takes the place of one that is followed the stream goes on: its first line stands for all there is, and lines
# are numbered on.
kept_of_a_file_made_anew() {
    stream=$root/tests/examples/service.stream
    rm -rf "$work/kept" && mkdir "$work/kept" && head -n 3 "$stream" > "$work/kept/stream" || return 1
    { head -n 3 "$stream" && head -n 2 "$stream" | sed 's/"seq":1,"snapshot":false/"seq":4,"snapshot":true/; s/"seq":2,/"seq":5,/'; } > "$work/joined"
    "$program" metrics --to "$work/kept/tasks.prom" --every 0 --follow "$work/kept/stream" &
    reader=$!
    has_lines "$stream" 3 "$work/kept/tasks.prom" && mv "$work/kept/stream" "$work/kept/old" && sleep 0.3 && head -n 1 "$stream" > "$work/kept/stream" &&
        has_lines "$work/joined" 4 "$work/kept/tasks.prom" && sed -n 2p "$stream" >> "$work/kept/stream" && has_lines "$work/joined" 5 "$work/kept/tasks.prom"
    came=$?
    kill "$reader" && wait "$reader" 2> /dev/null
    [ "$came" -eq 0 ]
}

# At a fault of the stream the file has the lines before it, and where no file can be written the old one stays, which is said once.
kept_at_faults() {
    stream=$root/tests/examples/service.stream
    rm -rf "$work/kept" && mkdir "$work/kept" && { head -n 3 "$stream" && echo '{}'; } > "$work/kept/stream" || return 1
    "$program" metrics --to "$work/kept/tasks.prom" "$work/kept/stream" 2> "$work/faults"
    [ $? -eq 1 ] && has_lines "$stream" 3 "$work/kept/tasks.prom" && cat "$work/faults" && [ "$(cat "$work/faults")" = 'fault: stream after 3 lines: BadShape' ] || return 1
    "$program" metrics --to "$work/no/such/folder" --every 0 "$stream" 2> "$work/faults"
    [ $? -eq 1 ] && cat "$work/faults" && [ "$(wc -l < "$work/faults")" -eq 1 ] && grep -q "^fault: Write $work/no/such/folder: [^ ]" "$work/faults"
}

# Where a place can't be written, as with a folder of that name, and then can, the numbers are put, and what couldn't be written
# is said once.
kept_once_there_is_room() {
    keep_every 0 2> "$work/faults" || return 1
    mkdir "$work/kept/tasks.prom" && head -n 2 "$stream" >&4 && sleep 1 && sed -n 3p "$stream" >&4 && sleep 1 && rmdir "$work/kept/tasks.prom" &&
        sed -n 4,5p "$stream" >&4 && has_lines "$stream" 5 "$work/kept/tasks.prom"
    came=$?
    ends_with_lines 5 && [ "$came" -eq 0 ] && cat "$work/faults" && [ "$(grep -c '^fault: Write ' "$work/faults")" -eq 1 ] &&
        [ "$(ls "$work/kept" | sort | xargs)" = 'pipe tasks.prom' ]
}

# What has the name of the new file, as a link or a pipe of somebody else, is never opened.
kept_past_a_link() {
    stream=$root/tests/examples/service.stream
    rm -rf "$work/kept" && mkdir "$work/kept" && echo mine > "$work/kept/other" && ln -s other "$work/kept/tasks.prom.new" &&
        timeout 60 "$program" metrics --to "$work/kept/tasks.prom" "$stream" && [ "$(cat "$work/kept/other")" = mine ] &&
        has_lines "$stream" 60 "$work/kept/tasks.prom" || return 1
    rm "$work/kept/tasks.prom" && mkfifo "$work/kept/tasks.prom.new" && timeout 60 "$program" metrics --to "$work/kept/tasks.prom" "$stream" &&
        has_lines "$stream" 60 "$work/kept/tasks.prom" && [ "$(ls "$work/kept" | sort | xargs)" = 'other tasks.prom' ]
}

as_it_is() {
    cat
}

# A service in which chance falls as this number says, and whose closed tasks leave.
are_numbers_of_service() {
    { echo 'retention 3000000000' && python3 "$examples/service.py" --seed "$1"; } > "$work/script" &&
        "$program" run "$work/script" > "$work/service" && are_numbers_of "$work/service" && are_numbers_of_few "$work/service"
}

# So many random streams, of which most have something odd, as a filter makes them.
are_numbers_of_random() {
    rm -rf "$work/random" && mkdir "$work/random" && python3 "$root/tests/odd/random_streams.py" "$1" "$2" | "$3" "$1" > "$work/streams" &&
        awk -v to="$work/random/" '$0 == "=" { stream = to (++number); next } { print > stream }' "$work/streams" || return 1
    [ "$(ls "$work/random" | wc -l)" -eq "$2" ] || return 1
    for stream in "$work/random"/*; do
        are_numbers_of "$stream" && are_numbers_of_few "$stream" && are_all_of_many "$stream" || return 1
    done
}

# No count falls from one line to the next, though tasks leave.
never_fall() {
    { printf 'retention 3000000000\ntimes\n' && python3 "$examples/service.py" --seed 1; } > "$work/script" &&
        "$program" run "$work/script" > "$work/service" || return 1
    for words in '--by name' '--by place' '--by name --series 2' '--by place --series 3'; do
        : > "$work/before"
        for lines in 20 40 60 80 100 120 140 160 180 200; do
            head -n "$lines" "$work/service" > "$work/front" && "$program" metrics $words "$work/front" |
                grep -E '^taskscope[a-z_]*_(total|bucket|sum|count)[{ ]' > "$work/after" &&
                python3 "$root/tests/metrics/never_fall.py" "$work/before" "$work/after" && mv "$work/after" "$work/before" || return 1
        done
    done
}

# A dashboard has what Grafana needs, and the Prometheus that runs takes its queries.
takes_dashboard() {
    python3 "$root/tests/metrics/check_dashboard.py" "$root/docs/dashboard.json" "http://127.0.0.1:$prometheus"
}

# ---- Prometheus

servers=
stop_servers() {
    for server in $servers; do
        kill "$server" && wait "$server"
    done 2> /dev/null
    servers=
}

free_port() {
    python3 -c 'import socket; s = socket.socket(); s.bind(("127.0.0.1", 0)); print(s.getsockname()[1])'
}

start_servers() {
    exporter=$(free_port) && prometheus=$(free_port) && mkdir "$work/collected" "$work/data" || return 1
    cat > "$work/prometheus.yml" << END
global: { scrape_interval: 1s }
rule_files: [$root/docs/alerts.yml]
scrape_configs:
  - job_name: node
    static_configs: [{ targets: ["127.0.0.1:$exporter"] }]
END
    prometheus-node-exporter --collector.disable-defaults --collector.textfile --collector.textfile.directory="$work/collected" \
        --web.listen-address="127.0.0.1:$exporter" > "$work/exporter.said" 2>&1 &
    servers=$!
    prometheus --config.file="$work/prometheus.yml" --storage.tsdb.path="$work/data" --web.listen-address="127.0.0.1:$prometheus" \
        > "$work/prometheus.said" 2>&1 &
    servers="$servers $!"
}

# What Prometheus answers to a query, once it has scraped; it is asked for up to 40 seconds.
answer_of() {
    python3 "$root/tests/metrics/ask.py" "http://127.0.0.1:$prometheus" "$1"
}

# A query of what is collected of the service's stream answers with the report's number.
answers_with() {
    answer=$(answer_of "$1") && echo "$1: $answer, and the report says $2" && [ "$answer" = "$2" ]
}

sum_in_report() {
    "$program" view "$stream" | awk -v key="$1" '$1 == "task" { for (i = 1; i < NF; i++) if ($i == key) { sum += $(i + 1); break } } END { printf "%d\n", sum }'
}

# How many names have a task that has waited for more than a second.
waiting_in_report() {
    "$program" view --times "$stream" | awk '$1 == "now" { now = $2 } $1 == "task" { name = $NF } $1 == "waits" && $(NF - 1) == "since" && now - $NF > 1000000000 { print name }' |
        sort -u | wc -l
}

try_prometheus() {
    stream=$root/tests/examples/service.stream
    start_servers && "$program" metrics --to "$work/collected/tasks.prom" "$stream" || return 1
    answers_with 'sum(taskscope_task_polls_total)' "$(sum_in_report polls)" &&
        answers_with 'sum(taskscope_task_wakes_total)' "$(sum_in_report wakes)" &&
        answers_with 'sum(taskscope_tasks)' "$("$program" view "$stream" | grep -c '^task ')" &&
        answers_with 'sum(taskscope_warnings)' "$("$program" view "$stream" | grep -c '^warn ')" &&
        answers_with 'count(taskscope_findings)' "$("$program" lint --findings "$stream" | grep -c '^finding ')" &&
        answers_with 'count(taskscope_task_polls_total)' "$("$program" view "$stream" | awk '$1 == "task" { print $NF, $3 }' | sort -u | wc -l)" &&
        answers_with 'count(taskscope_task_open_wait_seconds > 1)' "$(waiting_in_report)" &&
        answers_with 'count(taskscope_task_open_poll_seconds > 1)' 1
}

for stream in "$root"/tests/examples/*.stream; do
    step "$(basename "$stream" .stream), its numbers" are_numbers_of "$stream"
done
for seed in 1 2 3 4; do
    step "a service at random, by seed $seed, its numbers" are_numbers_of_service "$seed"
done
step "random streams, their numbers" are_numbers_of_random 1 20 as_it_is
step "random streams with histograms and resources, their numbers" are_numbers_of_random 2 20 "$root/tests/metrics/with_more.py"
step "no count falls while tasks leave" never_fall
for stream in "$root"/tests/examples/*.stream; do
    step "$(basename "$stream" .stream), its numbers in a file" are_kept "$stream"
done
step "numbers are kept while a stream comes" kept_while_it_comes
step "and no more often than is asked for" kept_no_more_often
step "also of a file that grows" kept_of_a_file_that_grows
step "and of one that is made anew" kept_of_a_file_made_anew
step "at a fault there are the numbers before it" kept_at_faults
step "once there is room again they are put" kept_once_there_is_room
step "a link or a pipe in the place of the new file is never opened" kept_past_a_link

if package promtool prometheus && package prometheus-node-exporter prometheus-node-exporter; then
    for stream in "$root"/tests/examples/*.stream; do
        "$program" metrics "$stream" > "$work/numbers"
        step "$(basename "$stream" .stream), as promtool reads its numbers" promtool check metrics < "$work/numbers"
    done
    step "the alerts, as promtool reads them" promtool check rules "$root/docs/alerts.yml"
    step "of a hang the alerts name the culprit" promtool test rules "$root/tests/metrics/alerts_test.yml"
    step "a Prometheus that scrapes a node exporter answers with the report's numbers" try_prometheus
    step "it takes each query of the dashboard" takes_dashboard
    if package prometheus-alertmanager prometheus-alertmanager; then
        mkdir "$work/hang"
        step "of a hang that is played in real time only the culprit's alert is let through, and rates are not 0" \
            python3 "$root/tests/metrics/hang.py" "$program" "$work/hang"
    fi
fi

finish
