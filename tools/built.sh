# Whether the proved program is built for the present sources: functions for a shell script that stands at the repository's top.
#
# A note lies beside the program. It has a sum of the sources that were proved and one of the program that they made, so it
# is right whatever times the files have. Where a source changes and changes back, it holds again. rt ci removes the
# note with the old program, so a program that a failed run left has none.

program=crates/hal_cli/out/hal_cli

# The crates that the program is made of, each with the line of crates.txt that says what it uses.
crates_of_program() {
    awk '
        { sub(/#.*/, "") }
        NF { name = $1; sub(/:$/, "", name); line[name] = $0 }
        END {
            crate[count = 1] = "hal_cli"; seen["hal_cli"]
            for (at = 1; at <= count; at++) {
                print line[crate[at]]
                words = split(line[crate[at]], word, /[ :]+/)
                for (i = 1; i <= words; i++)
                    if (word[i] in line && !(word[i] in seen)) { seen[word[i]]; crate[++count] = word[i] }
            }
        }
    ' crates.txt
}

# A sum of the names and the bytes of all that the program is made of and proved by.
sources_sum() {
    {
        crates_of_program
        find $(crates_of_program | sed 's/:.*//; s,^,crates/,') -name out -prune -o \( -name '*.rt' -o -name '*.antt' \) -type f -exec sha256sum {} + |
            LC_ALL=C sort
    } | sha256sum
}

# The note that is right for these sources and the program that lies there.
right_note() {
    printf '%s\n' "$1" "$(sha256sum <"$program")"
}

# Whether the program is built for the present sources.
is_built() {
    [ -x "$program" ] && [ -f "$program.note" ] && [ "$(cat "$program.note")" = "$(right_note "$(sources_sum)")" ]
}

# Notes that the program was built now, for the sources that had this sum before; or says that they changed meanwhile.
note_built() {
    if [ -n "$1" ] && [ "$(sources_sum)" = "$1" ]; then
        right_note "$1" >"$program.note"
    else
        echo "the sources changed while they were proved, so the program isn't noted as built for them" >&2
        return 1
    fi
}
