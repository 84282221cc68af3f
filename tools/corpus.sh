#!/usr/bin/env bash
# The corpus: corpus/ is what is published; programs find copies of its files in their data/.
# usage: tools/corpus.sh make      builds the corpus anew, with the outcomes of the second decoder, and copies it
#        tools/corpus.sh copy      copies corpus/ to where programs read it
#        tools/corpus.sh check     fails where a copy is not what corpus/ has
set -euo pipefail
cd "$(dirname "$0")/.."
files=(walk read sheets times identities drafts)
copies=(crates/vectors/data crates/outcomes/data)

# The files that a folder of copies has: all in vectors, and one in outcomes, which its run prints.
names() {
    case $1 in
        crates/outcomes/data) echo times.json ;;
        *) printf '%s.json\n' "${files[@]}" ;;
    esac
}

copy() {
    for folder in "${copies[@]}"; do
        mkdir -p "$folder"
        for name in $(names "$folder"); do
            cp "corpus/$name" "$folder/$name"
        done
    done
}

case ${1:-} in
    make)
        work=$(mktemp -d)
        trap 'rm -rf "$work"' EXIT
        (cd crates/outcomes/data && rt run "" -- times.json > /dev/null)
        program=$PWD/crates/outcomes/out/outcomes
        python3 tools/corpus.py inputs "$work"
        (cd "$work" && "$program" "${files[@]/%/.json}" > lines)
        python3 tools/corpus.py corpus "$work/lines"
        copy
        ;;
    copy) copy ;;
    check)
        for folder in "${copies[@]}"; do
            for name in $(names "$folder"); do
                cmp "corpus/$name" "$folder/$name"
            done
            [ "$(ls "$folder" | wc -l)" = "$(names "$folder" | wc -l)" ]
        done
        echo 'corpus: the copies are what corpus/ has'
        ;;
    *)
        sed -n '2,5s/^# //p' "$0" >&2
        exit 2
        ;;
esac
