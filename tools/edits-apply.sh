#!/usr/bin/env bash
# Says whether every must-fail edit still applies, those of crates/*/must-fail and those of edits/. Nothing is proved, so it takes a second.
# An edit is read as `rt must-fail` reads it: one `old:` and `new:` pair after another, each on the text that the pair before it left, and
# each `old:` text found exactly once in the file that the last `file:` line names.
# The exit status is 0 only where both kinds have edits, every folder of edits/ is a crate's, and every edit applies.
set -u
shopt -s nullglob
cd "$(dirname "$0")/.." || exit 1
export LC_ALL=C

status=0
fault() {
    echo "edits: $1" >&2
    status=1
}

for folder in edits/*; do
    name=${folder#edits/}
    if [ ! -d "$folder" ]; then
        fault "$folder is no folder"
    elif ! grep -Eq "^$name( +staticlib)?:" crates.txt; then
        fault "$folder: crates.txt has no crate '$name'"
    fi
done
for folder in edits/*/ crates/*/must-fail/; do
    here=("$folder"*.edit)
    all=("$folder"*)
    [ ${#here[@]} -gt 0 ] || fault "$folder has no edit"
    [ ${#here[@]} -eq ${#all[@]} ] || fault "$folder has a file that is no edit"
done

first=(crates/*/must-fail/*.edit)
more=(edits/*/*.edit)
[ ${#first[@]} -gt 0 ] || fault "there are none in crates/*/must-fail/"
[ ${#more[@]} -gt 0 ] || fault "there are none in edits/"
[ $((${#first[@]} + ${#more[@]})) -gt 0 ] || exit 1

awk '
    function text_of(path,    line, text, got) {
        text = ""
        while ((got = (getline line < path)) > 0) text = text line "\n"
        close(path)
        return got < 0 ? "" : text
    }

    # What keeps an edit from being applied; nothing where it applies.
    function fault_of(edit,    parts, line, number, file, path, old, pending, new, text, at, rest, now, pairs) {
        split(edit, parts, "/")
        split("", now)
        file = ""; pending = 0; pairs = 0; number = 0
        while ((getline line < edit) > 0) {
            number++
            if (number == 1 && line !~ /^# .*\.$/) return "its first line does not say in a sentence what is wrong with the program"
            if (index(line, "file: ") == 1) file = substr(line, 7)
            else if (index(line, "old: ") == 1) {
                if (pending) return "line " number ": there is no \"new:\" for the \"old:\" before it"
                old = substr(line, 6)
                pending = 1
            } else if (index(line, "new:") == 1) {
                if (!pending || old == "") return "line " number ": there is no \"old:\" text for this \"new:\""
                new = substr(line, 5)
                sub(/^ /, "", new)
                if (new == old) return "line " number ": \"old:\" and \"new:\" are the same"
                if (file !~ /^(src|specs)\// || file ~ /(^|\/)\.\.(\/|$)/) return "\"file: " file "\" names no file of src/ or specs/"
                path = "crates/" parts[2] "/" file
                if (!(path in kept)) kept[path] = text_of(path)
                text = path in now ? now[path] : kept[path]
                if (text == "") return "there is no file " path
                at = index(text, old)
                if (!at) return "line " (number - 1) ": the \"old:\" text is not in " path
                rest = substr(text, at + length(old))
                if (index(rest, old)) return "line " (number - 1) ": the \"old:\" text is in " path " more than once"
                now[path] = substr(text, 1, at - 1) new rest
                pending = 0
                pairs++
            }
        }
        if (pending) return "there is no \"new:\" for its last \"old:\""
        return pairs ? "" : "it has no \"old:\" and \"new:\" pair"
    }

    BEGIN {
        for (i = 1; i < ARGC; i++) {
            fault = fault_of(ARGV[i])
            close(ARGV[i])
            if (fault == "") continue
            print "edits: " ARGV[i] ": " fault > "/dev/stderr"
            bad++
        }
        print "edits: " (ARGC - 1 - bad) " of " (ARGC - 1) " must-fail edits apply"
        exit (bad > 0)
    }' "${first[@]}" "${more[@]}" || status=1
exit $status
