#!/usr/bin/env bash
# Tries the examples that stand in the documents.
#   tools/document_examples.sh [FILE.md ..]
# In a block that begins with ```console each line after "$ " is run, and what it writes to standard output has to be
# the lines below it. ```console TOOL needs that tool, and is skipped where it isn't there. The blocks of a document are
# run in one folder, which looks like the top of the repository and is thrown away. Without files: all documents. It
# ends with 1 where an output differs, and else with 0.
set -u
top=$(CDPATH='' cd -- "$(dirname -- "$0")/.." && pwd) || exit 2
[ $# -gt 0 ] || set -- "$top"/*.md "$top"/docs/*.md "$top"/examples/*.md
work=$(mktemp -d) || exit 2
trap 'rm -rf "$work"' EXIT
status=0

# Runs the command that was read, if there is one, and compares what it prints with the lines that were read below it.
try_command() {
    [ -n "$command" ] || return
    (cd "$work/room" && bash -c "$command") </dev/null >"$work/printed"
    if diff <(printf '%s' "$due") "$work/printed"; then
        tried=$((tried + 1))
    else
        echo "$document: DIFFERS (the printed lines stand after >): $command"
        status=1
    fi
    command=''
}

try_document() {
    local inside=no line tool
    while IFS= read -r line; do
        case $inside:$line in
            no:'```console'*)
                tool=${line#'```console'}
                tool=${tool# }
                if [ -z "$tool" ] || command -v "$tool" >/dev/null; then
                    inside=yes
                else
                    echo "$document: $tool: not there, a block is skipped"
                fi
                ;;
            yes:'```')
                try_command
                inside=no
                ;;
            yes:'$ '*)
                try_command
                command=${line#'$ '}
                due=''
                ;;
            yes:*) due+=$line$'\n' ;;
        esac
    done <"$document"
}

for document in "$@"; do
    mkdir "$work/room"
    for part in asip crates crates.txt docs examples tools; do
        ln -s "$top/$part" "$work/room/$part"
    done
    command='' due='' tried=0
    try_document
    rm -r "$work/room"
    [ $tried -eq 0 ] || echo "$document: $tried examples print what stands there"
done
exit $status
