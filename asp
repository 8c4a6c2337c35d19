#!/bin/bash
# Runs the program on the words given: as `asp`, or as `asp-explain` or `asp-outcomes` under that name, a link to
# this file, where its first word is --explain or --outcomes. It runs as `rt ci` proved and built it, or without
# proof where it has not since the sources changed. What was built without proof is kept in out/, and runs at once
# until a source changes. Ends with the program's status, and with 126 where there is no answer.
set -o pipefail
root=$(dirname "$(readlink -f "$0")")
case ${0##*/} in
    asp-explain) name=asp-explain command=(--explain) ;;
    asp-outcomes) name=asp-outcomes command=(--outcomes) ;;
    *) name=asp command=() ;;
esac
program=$root/crates/asp/out/asp
if [[ -x $program && -z $(find "$root/crates" "$root/crates.txt" -name out -prune -o -newer "$program" \
    \( -name '*.rt' -o -name '*.antt' -o -name crates.txt \) -print -quit) ]]; then
    exec "$program" "${command[@]}" "$@"
fi

give_up() {
    echo "$name: no answer without proof: $1" >&2
    exit 126
}
# The sum of all files of the crates and of their list.
sum_of_sources() {
    (cd "$root" && find crates crates.txt -name out -prune -o -type f -print0 | LC_ALL=C sort -z \
        | xargs -0 sha256sum | sha256sum | cut -d ' ' -f 1)
}
sum=$(sum_of_sources) || give_up "the sources cannot be read"
kept=$root/out/unproved/asp-$sum
if [[ -x $kept ]]; then
    echo "$name: this answer comes from a build without proof, kept in out/; rt ci proves and builds the program for good" >&2
    "$kept" "${command[@]}" "$@"
    status=$?
    ((status < 126)) || give_up "the program that was kept ended with status $status"
    exit $status
fi

echo "$name: this answer comes from a build without proof, in a minute or two; rt ci proves and builds the program for good" >&2
room=$(mktemp -d) || exit 126
trap 'rm -rf "$room"' EXIT
# A copy of the sources alone: a word may name a file of the crate's folder, and not be the caller's.
(cd "$root" && cp -r --parents crates.txt crates/*/src "$room") || exit 126
# The try's folder lies below some that are empty: a word that leads up finds nothing there.
above=$room/above/above/above/above/above/above
mkdir -p "$above" || exit 126

# Whether the try has another file of this name.
is_taken() {
    case /$1/ in
        //*) false ;;
        */program/* | */stdin/* | */stdout/* | */stderr/*) true ;;
        *) [[ -f $room/crates/asp/$1 ]] ;;
    esac
}
# A word that names a readable file, itself or behind its =, is given with a copy of that file under the same name.
# Where the try cannot have the name, the word names the copy, and what the program writes of it is put back.
words=() data=() copies=()
for word; do
    file=$word copy=$room/copy${#words[@]}
    [[ -e $word ]] || file=${word#*=}
    if ! { head -c 268435457 <"$file" >"$copy"; } 2>/dev/null; then
        is_taken "$file" && give_up "the file $file cannot be read"
        words+=("$word")
    elif [[ /$file/ == //* || /$file/ == */../* || $file == *=* ]] || is_taken "$file"; then
        words+=("${word%"$file"}$copy")
        copies+=("$copy" "$file")
    else
        words+=("$word")
        data+=(--data "$file=$copy")
    fi
done
# What is written, with the names of files in place of those of their copies.
named() {
    local text i
    [[ $name == asp-explain ]] || { cat "$1"; return; }
    text=$(cat "$1" && echo .) || return
    for ((i = 0; i < ${#copies[@]}; i += 2)); do
        text=${text//"${copies[i]}"/"${copies[i + 1]}"}
    done
    printf '%s' "${text%.}"
}

# While the program runs, it stands in the try's folder under this name. A link to it outlives the try.
catch() {
    while kill -0 $$; do
        for it in "$above"/*/*/program; do
            [[ -e $it ]] && ln "$it" "$room/built" && return
        done
        sleep 0.02
    done
}
catch 2>/dev/null &
catcher=$!
cd "$room/crates/asp" || exit 126
TMPDIR=$above rt try --seconds 600 "${data[@]}" -- "${command[@]}" "${words[@]}" >"$room/out" 2>"$room/said" </dev/null
kill $catcher 2>/dev/null
if [[ ! $(tail -n 1 "$room/said") =~ ^run=ended\ status=([0-9]+)\ .*proved=no$ ]]; then
    give_up "$(sed -n 's/^checked: no-answer: //p' "$room/said" | grep . || tail -n 3 "$room/said")"
fi
status=${BASH_REMATCH[1]}
named "$room/out" || exit 126
sed -E '/^(rt|interpreter|checked|races): |^run=/d' "$room/said" >&2

# It is kept if it runs by itself, and if no source has changed since.
printf 'print(1)' >"$room/one.asp"
if [[ $("$room/built" "$room/one.asp" 2>/dev/null) == *'> 1' && $(sum_of_sources) == "$sum" ]]; then
    rm -f "$root/out/unproved/"*
    mkdir -p "$root/out/unproved" && cp "$room/built" "$kept.new" && mv "$kept.new" "$kept"
fi
exit "$status"
