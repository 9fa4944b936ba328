#!/usr/bin/env bash
# How many nodes in one another are read, rewritten, printed and more, with a stack of 8 MiB. For each form, and each action of a form that
# is made, the greatest number of levels with which the program that the first argument names, crates/nested_json/out/nested_json of some
# checkout, ends well. More than 1,000,000 aren't tried. Further words are the forms that are wanted, in place of all.
#
# It also fails where a print of 100,000 lists wants more than 128 MiB of address space: then its stack has room for more than it needs.
set -eu
program=$1
shift
most=1000000

# Whether so many levels of a form end well. The shell's word of a program that ended badly is left out.
ends_well() {
    { (ulimit -s 8192; ulimit -c 0; exec "$program" "$@") >/dev/null; } 2>/dev/null
}

# The greatest number of levels, of a form and perhaps an action.
search() {
    local read=1 refused=2 levels
    while [ "$refused" -le "$most" ] && ends_well "$refused" "$@"; do
        read=$refused
        refused=$((2 * refused))
    done
    if [ "$refused" -gt "$most" ] && ends_well "$most" "$@"; then
        printf '%-32s %7d or more\n' "$*" "$most"
        return
    fi
    while [ $((refused - read)) -gt 1 ]; do
        levels=$(((read + refused) / 2))
        if ends_well "$levels" "$@"; then read=$levels; else refused=$levels; fi
    done
    printf '%-32s %7d\n' "$*" "$read"
}

is_wanted() {
    local form=$1
    shift
    [ $# -eq 0 ] && return
    for wanted in "$@"; do
        [ "$form" = "$wanted" ] && return
    done
    return 1
}

for form in fields inline_fragments list_types non_null_list_types lists objects flaw renamed_fields replaced_variables; do
    if is_wanted "$form" "$@"; then search "$form"; fi
done
for form in lists objects selection field fragment definition document variable_types argument_types field_types wide_set; do
    if is_wanted "made_$form" "$@"; then
        for action in print check compare hash clone drop write write_text read_back; do search "made_$form" "$action"; done
    fi
done
if ! { (ulimit -s 8192; ulimit -v 131072; exec "$program" 100000 made_lists print) >/dev/null; }; then
    echo "a print of 100,000 lists wants more than 128 MiB"
    exit 1
fi
