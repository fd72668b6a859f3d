#!/bin/sh
# Plays the same logs with the proved program and with a plain planner in C++, compares what they print byte for byte, and prints
# how long each took at its best of five runs (RUNS=n for another number) and how many times as long the proved one took.
# `rt run` in crates/study builds the proved program.
set -eu

here=$(cd "$(dirname "$0")" && pwd)
root=$(cd "$here/.." && pwd)
cd "$root"

runs=${RUNS:-5}
study=crates/study/out/study
planner=target/bench/planner

if [ ! -x "$study" ]; then
    echo "$study is not there: run rt run < stdin in crates/study first" >&2
    exit 1
fi
mkdir -p target/bench
rm -f target/bench/*.log target/bench/*.out
g++ -std=c++17 -O2 -o "$planner" bench/planner.cpp
python3 bench/make_logs.py target/bench

# best PROGRAM LOG OUT: plays the log, keeps what is printed in OUT, prints the shortest time in milliseconds
best() {
    python3 - "$runs" "$@" <<'PYTHON'
import subprocess, sys, time
runs, program, log, out = int(sys.argv[1]), *sys.argv[2:]
times = []
for _ in range(runs):
    with open(log, "rb") as source, open(out, "wb") as target:
        start = time.perf_counter()
        subprocess.run([program], stdin=source, stdout=target, check=True)
        times.append(time.perf_counter() - start)
print(f"{min(times) * 1000:.1f}")
PYTHON
}

different=0
printf '%-14s %9s %12s %12s %7s  %s\n' log questions planner study ratio output
for log in target/bench/*.log; do
    name=$(basename "$log" .log)
    questions=$(grep -c '^route' "$log")
    plain=$(best "$planner" "$log" "target/bench/$name.planner.out")
    proved=$(best "$study" "$log" "target/bench/$name.study.out")
    if cmp -s "target/bench/$name.planner.out" "target/bench/$name.study.out"; then
        output=same
    else
        output=DIFFERENT
        different=1
    fi
    ratio=$(awk -v a="$proved" -v b="$plain" 'BEGIN { printf "%.2f", a / b }')
    printf '%-14s %9s %9s ms %9s ms %7s  %s\n' "$name" "$questions" "$plain" "$proved" "$ratio" "$output"
done
exit "$different"
