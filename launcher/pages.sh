# What ./plexrun says of itself, and of scripts. The words are those of launcher/words; what is said of scripts is launcher/tell.py's.

# Says something of a script or a report, where Python is there.
tell() {
    command -v python3 >/dev/null 2>&1 || return 0
    python3 "$top/launcher/tell.py" "$@"
}

# Whether a report has calls, and each of them was refused.
are_refused() {
    awk '/^HISTORY / { left = $3; next } left > 0 { left--; calls++; if (/ -> REFUSED /) refused++; else exit } END { exit !(calls && calls == refused) }'
}

# Shows the line that an answer `SCRIPT line WHY` names, of the script on standard input, and what is wrong with it; or the line of a report that an
# answer `NO ..` names, of the script and the report there.
explain() {
    set -- $1
    [ -f /proc/self/fd/0 ] || return 0
    case $1 in
    SCRIPT) tell wrong "$2" "$3" </proc/self/fd/0 ;;
    NO) shift; tell no "$@" </proc/self/fd/0 ;;
    esac
}

# The rows of launcher/words, each with what the word does.
words_told() {
    awk -v only="$1" '/^[a-z]/ && (only == "" || $1 == only) {
        word = $1; operand = ($2 == "-") ? "" : " " $2; files = ($3 == "script") ? " [FILE]" : ($3 == "script+report") ? " [SCRIPT REPORT]" : ($3 == "files") ? " SCRIPT [REPORT]" : ""
        what = $0
        for (i = 0; i < 5; i++) sub(/^[^ ]+ +/, "", what)
        printf "  %-23s %s\n", word operand files, what
    }' "$top/launcher/words"
}

# What a word reads and answers.
word_page() {
    echo "usage: ./plexrun WORD"
    words_told "$1"
    echo
    case $1 in
    serial | threads) cat <<END
reads a script (docs/SCRIPT.md), of at most 1,048,576 bytes; prints a report (docs/READING-REPORTS.md)
END
        ;;
    load) echo 'reads nothing; N is a number up to 4294967295 (docs/THREADS.md)' ;;
    locks) echo 'reads a script of one lock structure, OBTAIN and RELEASE alone (docs/commands/locks.md)' ;;
    check) cat <<END
reads a script, a line that is exactly REPORT, and a report: one input, or two files, which are joined so; at most 16,777,216 bytes,
the script at most 1,048,576. Who made the report doesn't matter.

  YES n                 status 0: a facility can have answered so; the report has n entries
  NO TEXT line          status 9: up to that line of the report, from 1, it begins as no report of this script does
  NO structure no       status 9: that entry, by its place in the structure's history, begins the first call that no facility answers so
  NO TRANSCRIPT c item  status 9: that item of this caller's transcript is the first that can't be shown
  SCRIPT line WHY       status 3: the script is wrong; SCRIPT 0 NOREPORT where there is no line REPORT

docs/CHECKING.md says what each of them means, and how to have another facility's history checked.
END
        ;;
    joined) echo 'reads a script and a report of it, by serial or threads (docs/READING-REPORTS.md)' ;;
    esac
}

# Which program is started, and of which kit it is.
program_told() {
    if is_current; then
        echo "program: proved, and built of the sources as they are ($program)"
    elif [ -x "$program" ]; then
        echo 'program: the sources were changed since it was proved and built, so a run is not proved and compiles them; ./build builds it again'
    else
        echo 'program: not built, so a run is not proved and compiles the sources; ./build proves and builds it'
    fi
    here=$(rt --version 2>/dev/null | head -n 1)
    echo "kit: proved with $(sed -n 's/.*Proved with: `\([^`]*\)`.*/\1/p' "$top/README.md"); here: ${here:-no command rt}"
}

help_page() {
    cat <<END
plexrun $(cat "$top/VERSION"): what a coupling facility answers to a script of calls

usage: ./plexrun WORD

$(words_told)
  help [WORD]             this page, or what a word reads and answers, as in ./plexrun help check
  help COMMAND ..         the form of a line, as in ./plexrun help READ
  --version               which version this is, and whether the program is proved

A script comes from FILE, or else from standard input. Standard output is the report; what the launcher says goes to standard error.
For check, a script, a line REPORT and a report come from standard input, or a script and a report are two files.
./build proves and builds the program. ./build --install FOLDER puts it in FOLDER, with the manual page and the examples.

statuses: 0 the report is written; 2 no such words; 3 the script is wrong; 4 a read failed; 5 a write failed; 6 no memory; 7 the script is too long;
  8 a journal is full; 9 check says no; 69 no program and no kit; 70 not built; 75 no answer of an unproved run; 130 interrupted
pages: README.md; docs/SCRIPT.md (the language), docs/FORMS.md (every form of a line), docs/READING-REPORTS.md, docs/CHECKING.md, docs/REFUSALS.md;
  examples/

$(program_told)
END
}

version_page() {
    echo "plexrun $(cat "$top/VERSION")"
    program_told
}
