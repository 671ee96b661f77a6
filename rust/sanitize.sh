#!/usr/bin/env bash
# Runs the programs on four loads, and the tests of boxes, windows and misuses, under Rust's thread sanitizer, which has to warn of nothing; then the last
# load with a weaker order in shims/crossbeam_queue.rs, of which it has to warn. It needs what rust/build needs, on x86-64 Linux.
#
#     rust/sanitize.sh [REQUESTS]     so many requests in each load, or else 150000
set -euo pipefail
here=$(cd "$(dirname "$0")" && pwd)
requests=${1:-150000}
target=x86_64-unknown-linux-gnu
built=$here/out/target/sanitized/$target/release
# Stable Rust has the sanitizer, but takes the option only so.
export RUSTC_BOOTSTRAP=1 RUSTFLAGS="-Zsanitizer=thread -Cunsafe-allow-abi-mismatch=sanitizer"
export CARGO_PROFILE_RELEASE_LTO=off CARGO_TARGET_DIR=$here/out/target/sanitized TSAN_OPTIONS=exitcode=0
said=$(mktemp -d)
trap 'rm -rf "$said"; python3 -B "$here/export.py" > /dev/null' EXIT
failed=0

# How many warnings there are, but those of Rust's own library, which has no instruments: its harness of tests passes results from thread to thread, and the
# handle of a thread is freed behind a fence, which the sanitizer does not see.
warnings() {
    awk '/WARNING: ThreadSanitizer/ { all++ }
        / #0 / { is_free = / #0 free / }
        / #[01] .*(test::event::|test::run_test)/ || is_free && / #1 .*std::(thread::(lifecycle|scoped)|sys::thread_local)/ { of_rust[all] = 1 }
        END { print all - length(of_rust) }' "$said/err"
}
# Runs a command. The sanitizer is to warn of what it does, or not.
watch() {
    local name=$1 is_to_warn=$2 count
    shift 2
    "$@" > "$said/out" 2> "$said/err" || { failed=1; tail -n 5 "$said/out" "$said/err"; }
    count=$(warnings)
    echo "$name: $count warnings"
    [ $((count > 0)) = "$is_to_warn" ] || { failed=1; grep -m 1 -A 20 'WARNING: ThreadSanitizer' "$said/err" || true; }
}
auction() {
    "$built/rubis_auction" --workers 4 --history --joined "$1" --split "$2" < "$said/load"
}

bids="--views 0 --comments 0 --purchases 0 --new-items 0"
"$here/build" build --release --target $target -p rubis_auction -p rubis_load -p example_watch -p example_bank
for words in "--items 1 $bids" "--items 10000 $bids" "--items 10 $bids" "--skew 100"; do
    # shellcheck disable=SC2086
    "$built/rubis_load" --workers 4 --requests "$requests" $words > "$said/load"
    for quotas in "64 4096" "400 400"; do
        # shellcheck disable=SC2086
        watch "load $words, quotas $quotas" 0 auction $quotas
    done
done
watch example_watch 0 "$built/example_watch"
watch example_bank 0 "$built/example_bank"
watch tests 0 "$here/build" test --release --target $target --tests -p phase_tests -p engine_tests \
    -p application_tests -p fundreivo
sed -i 's/Ordering::SeqCst/Ordering::Relaxed as SeqCst/' "$here/out/shims/crossbeam_queue/src/lib.rs"
AS_IS=1 "$here/build" build --release --target $target -p rubis_auction
watch "a planted Relaxed" 1 auction 400 400
exit $failed
