#!/bin/sh
# Compares a gate with std's Mutex and Condvar, on 4 processors and on 2: entries that nobody disturbs, a slot buffer
# between two threads, and five threads in a chain of such buffers. Of three runs each, in turn, the least times.
here=$(cd "$(dirname "$0")" && pwd)
entries=${1:-1000000}
items=${2:-1000000}
chained=${3:-100000}
cd "$here/../../crates/solo_bench" || exit 1
[ -x out/solo_bench ] || rt run -- all >/dev/null 2>&1 || exit 1
work=$(mktemp -d)
trap 'rm -rf "$work"' EXIT
rustc --edition 2021 -O -o "$work/mutex" "$here/mutex.rs" || exit 1

for processors in 0-3 0,1; do
    for _ in 1 2 3; do
        taskset -c "$processors" ./out/solo_bench gate "$entries" "$items" "$chained" 2>&1 >/dev/null | sed 's/^/gate /'
        taskset -c "$processors" "$work/mutex" "$entries" "$items" "$chained" 2>&1 | sed 's/^/std /'
    done | awk -v processors="$processors" -v entries="$entries" -v items="$items" -v chained="$chained" '
        { key = $1 " " $2; if (!(key in least) || $3 < least[key]) least[key] = $3 }
        END {
            print "processors " processors ":"
            count["entries"] = 2 * entries; count["buffer"] = items; count["chain"] = chained
            told["entries"] = "an entry"; told["buffer"] = "an item from thread to thread"
            told["chain"] = "an item through five threads"
            kinds = split("entries buffer chain", names, " ")
            for (k = 1; k <= kinds; k++) {
                name = names[k]; gate = least["gate " name] / count[name]; std = least["std " name] / count[name]
                printf "  %s: %.0f ns, std %.0f ns, %.2f times as long\n", told[name], gate, std, gate / std
            }
        }'
done
