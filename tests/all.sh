#!/usr/bin/env bash
# All tests: `rt ci`, and then the scripts beside this one on the programs that it built. The last line counts them all.
#
#     tests/all.sh                   all tests
#     tests/all.sh --since COMMIT    and the edits (tests/edits.py) of crates that changed since, or above such crates
#     tests/all.sh --built           only the scripts, on programs and tests that are built
#     tests/all.sh --unproved        the same on programs and tests that it builds with no proof, and these tests
#
# A line tells the commit, whether the tree has changes, the kit, and when; the sums of the programs follow `rt ci`, for tests/package.sh.
# Seven scripts run beside the others; what they said is printed after them.
set -euo pipefail
cd "$(dirname "$0")/.."

refuse() {
    echo "all.sh: $1" >&2
    exit 2
}

must_be_built() {
    [ -x "$1" ] || refuse "--built: there is no $1, which \`rt ci\` builds; --unproved builds all with no proof"
}

# A script that does not end with its count has failed, and so has a must-fail edit that `rt ci` lets pass though it shows little of a contract: one that
# is refused only by a limit, or as a search gave up. `rt ci` prints the first 160 characters of each refusal: `search` gave up may end at its first
# letters, and goals behind the first stay unseen.
count() {
    awk '
        { last[FILENAME] = $0 }
        FILENAME ~ /\/rt_ci$/ && /BAD EDIT|only by a limit of the prover|; .search. g|says (little|less) of the contract/ { weak[++failed] = $0 }
        END {
            for (edit = 1; edit in weak; edit++)
                print "FAILED " weak[edit]
            for (file = 1; file < ARGC; file++) {
                counted = last[ARGV[file]] ~ /^[0-9]+ passed, [0-9]+ failed$/
                split(last[ARGV[file]], words, " ")
                passed += counted ? words[1] : 0
                failed += counted ? words[3] : 1
            }
            print passed " passed, " failed " failed"
            exit failed > 0
        }' "$said"/*
}

how=${1:-} edits=(--read)
case "$how $#" in
    " 0" | "--unproved 1") ;;
    "--since 2")
        git rev-parse -q --verify "$2^{commit}" > /dev/null || refuse "git knows no commit $2"
        edits=(--since "$2")
        ;;
    "--built 1")
        for crate in crates/*; do
            name=$(basename "$crate")
            [ ! -e "$crate/src/main.rt" ] || must_be_built "$crate/out/$name"
            ! grep -rqF '#[test]' "$crate/src" || must_be_built "$crate/out/${name}_tests"
        done
        ;;
    *) refuse "takes no words but --since COMMIT, --built or --unproved" ;;
esac
if [ "$how" != --built ]; then
    command -v rt > /dev/null || refuse "there is no \`rt\` on the path"
    RT_JOBS=$(PYTHONPATH=tests python3 -B -c 'from lib.kit import functions_of_kit, lanes; print(lanes(functions_of_kit()))')
    export RT_JOBS
fi
room=$(mktemp -d)
trap 'kill $(jobs -p) 2> /dev/null || true; rm -rf "$room"' EXIT
said=$room/said
mkdir "$said"
unset UNPROVED

[ "$how" != --unproved ] || echo "NOTHING IS PROVED HERE: programs and tests are built with no proof"
tree="no changes"
[ -z "$(git status --porcelain 2>&1)" ] || tree="changes"
echo "commit $(git rev-parse HEAD 2> /dev/null || echo unknown), $tree, $(rt version 2> /dev/null || echo unknown), $(date -u +%FT%TZ)"
if [ "$how" = --unproved ]; then
    export UNPROVED=$room/programs
    echo "== tests/unproved.py"
    python3 -B tests/unproved.py "$UNPROVED" 2>&1 | tee "$said/unproved" || true
elif [ "$how" != --built ]; then
    # `rt ci` would put back libraries of `rt check` in place of its own, over which edits are tried.
    [ "$how" != --since ] || rm -rf crates/*/out/rlib
    rt ci | tee "$said/rt_ci" || {
        echo "FAILED scripts: none is run, since \`rt ci\` failed" | tee "$said/scripts"
        count
    }
    sha256sum crates/{rubis_auction/out/rubis_auction,rubis_check/out/rubis_check,rubis_load/out/rubis_load}
fi
echo "== tests/edits.py ${edits[*]}"
python3 -B tests/edits.py "${edits[@]}" 2>&1 | tee "$said/edits" || true
beside="second_opinion tutorial must_be_spent edits_tests timeline failover terminals"
for script in $beside; do
    python3 -B "tests/$script.py" > "$said/$script" 2>&1 &
done
for script in documents surface worked ends live logs lasting serving quorum limits refused_memory library_calls checking loads tools packaged joined postgres rust; do
    echo "== tests/$script.py"
    python3 -B "tests/$script.py" 2>&1 | tee "$said/$script" || true
done
wait
for script in $beside; do
    echo "== tests/$script.py"
    cat "$said/$script"
done

[ "$how" != --unproved ] || echo "NOTHING WAS PROVED HERE: programs and tests were built with no proof"
count
