#!/usr/bin/env bash
# Packs the programs that `rt ci` built, to run without the kit: fundreivo-VERSION-x86_64-linux.tar.gz, with examples, pages, those of the libraries
# (docs/api), man pages, the crates as ordinary Rust (if cargo finds those of others, and writes Cargo.lock) and MANIFEST. The same commit, programs, log
# and crates of others give the same bytes.
#
#     tests/package.sh [--log FILE] [FOLDER]    into FOLDER, or else out/
#
# FILE is what the run of tests/all.sh that built the programs printed: MANIFEST then tells what it proved and tested.
set -euo pipefail
export LC_ALL=C TZ=UTC

refuse() {
    echo "tests/package.sh: $1" >&2
    exit 1
}

# Whether `rt ci` built and ran a crate's program from the files that are there. It runs each program that it has proved and built, and leaves what that wrote.
check_program() {
    local program=crates/$1/out/$1 wrote=crates/$1/out/stdout newer
    [ -x "$program" ] || refuse "there is no $program: tests/all.sh builds it"
    newer=$(find HANDLES crates.txt crates -name out -prune -o -type f -newer "$program" -print -quit)
    [ -z "$newer" ] || refuse "$newer is newer than $program: tests/all.sh builds it anew"
    if [ "$program" -nt "$wrote" ] || ! cmp -s "$wrote" "crates/$1/stdout"; then
        refuse "$program is not as \`rt ci\` builds and runs it: tests/all.sh builds it anew"
    fi
    [ -z "$log" ] || grep -qxF "$(sha256sum "$program")" "$log" || refuse "$log is not of this $program"
}

# What the log tells, a fact a line, or why it tells nothing of these programs.
facts_of_log() {
    awk -v commit="$commit" '
        function refuse(why) { print why; exit 1 }
        /^commit / && !began { split($0, heading, ", "); kit = heading[3]; began = heading[4] }
        /^== / { crate = / its tests$/ ? "" : $2 }
        /^logic=proved / && crate && !proved { match($0, / functions=[0-9]+/); functions[crate] = substr($0, RSTART + 11, RLENGTH - 11) }
        /^rt: [a-z0-9_]+ (proved$|is kept: )/ { crates++; kept += / is kept: / }
        /^(rt: must-fail )?[a-z0-9_]+\/[A-Za-z0-9_.-]+\.edit: refused/ { edits++ }
        /^rt: ok; / { proved = 1 }
        { last = $0 }
        END {
            if (heading[1] != "commit " commit || heading[2] != "no changes") refuse("is not of this commit")
            if (!proved || last !~ /^[0-9]+ passed, 0 failed$/) refuse("does not end with all proved and nothing failed")
            for (crate in functions) sum += functions[crate]
            print "gate: tests/all.sh, begun " began
            print "kit: " kit
            print "logic: " substr(kit, index(kit, "logic ") + 6)
            print "crates proved: " crates (kept ? ", " kept " of them in earlier runs" : "")
            print "functions proved: " sum + 0 (kept ? " in this run" : "")
            print "edits refused: " edits + 0
            print "crates, edits and tests: " last
        }' "$log"
}

facts_without_log() {
    local kit
    kit=$(rt version 2> /dev/null) || kit="not known"
    printf '%s\n' "gate: not told, since no log was given" "kit where this was packed: $kit" "logic: ${kit##*logic }"
}

manifest() {
    local libraries glibc
    libraries=$(ldd bin/* | awk '$2 == "=>" { print $1 }' | sort -u | paste -s -d ' ')
    glibc=$(grep -aoh 'GLIBC_[0-9.]*' bin/* | sort -uV | tail -n 1)
    # `sha256sum --check` passes over lines that begin with #.
    sed 's/^/# /' << EOF
version: $version
commit: $commit
committed: $(date -d "@$committed" +%FT%TZ)
built: $built
$facts
programs need: Linux on x86-64, $libraries of glibc ${glibc#GLIBC_} or later
examples in Python need: Python 3.11
to check: sha256sum --check MANIFEST
to try: bin/rubis_auction < examples/first_example.csv
EOF
    find -- * -type f ! -name MANIFEST | sort | xargs sha256sum
}

log=
if [ "${1:-}" = --log ]; then
    [ -r "${2:-}" ] || refuse "there is no log ${2:-after --log}"
    log=$(realpath "$2")
    shift 2
fi
[[ $# -le 1 && ${1:-} != -* ]] || refuse "it takes [--log FILE] [FOLDER]"
into=${1:+$(realpath -m "$1")}
cd "$(dirname "$0")/.."
into=${into:-$PWD/out}

changes=$(git status --porcelain 2> /dev/null) || refuse "git cannot tell whether the tree has changes"
[ -z "$changes" ] || refuse "the tree has changes that are not committed"
commit=$(git rev-parse HEAD)
committed=$(git show -s --format=%ct)
programs=()
for name in rubis_auction rubis_check rubis_load; do
    check_program $name
    programs+=("crates/$name/out/$name")
done
built=$(date -r "${programs[0]}" +%FT%TZ)
if [ -n "$log" ]; then
    facts=$(facts_of_log) || refuse "$log $facts"
else
    facts=$(facts_without_log)
fi
version=$("${programs[0]}" --version 2>&1 || true)
version=${version##* }

packed=fundreivo-$version-x86_64-linux
room=$(mktemp -d)
trap 'rm -rf "$room"' EXIT
mkdir -p "$into" "$room/$packed/bin"
cp "${programs[@]}" "$room/$packed/bin"
git archive HEAD README.md LICENSE CHANGELOG.md docs examples | tar -x -C "$room/$packed"
mkdir -p "$room/$packed/share/man/man1"
python3 -B docs/man_pages.py "$room/$packed/share/man/man1" "${programs[@]}"
python3 -B docs/api.py "$room/$packed/docs/api"
if said=$(rust/build generate-lockfile 2>&1); then
    mkdir "$room/$packed/rust"
    tar -c -C rust/out --exclude=./target . | tar -x -C "$room/$packed/rust"
else
    echo "tests/package.sh: SKIPPED the crates as ordinary Rust: $(grep -m 1 '^error' <<< "$said" || tail -n 1 <<< "$said")" >&2
fi
(cd "$room/$packed" && manifest > MANIFEST)
tar -c -C "$room" --sort=name --format=ustar --owner=0 --group=0 --numeric-owner --mode=u=rwX,go=rX --mtime="@$committed" "$packed" | gzip -n > "$room/archive"
cp "$room/archive" "$into/$packed.tar.gz"
echo "$into/$packed.tar.gz"
