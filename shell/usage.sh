# The words that `graphtool` and `historytool` take, by the table tables/commands. They read this file with
# `.`, with `top` set to the folder in which they stand and `name` to what they call themselves. It defines functions, and
# runs nothing.

# The line of the version, for a name.
version_of() {
    printf '%s %s\n' "$1" "$(cat "$top/VERSION")"
}

# Sets `tool`, `reads`, `takes`, `by_git` and `about` to what the table says of a command. The answer is false where it has
# none of that name.
look_up() {
    while read -r listed tool reads takes by_git about; do
        case $listed in
        '#'*) ;;
        "$1") return 0 ;;
        esac
    done <"$top/tables/commands"
    return 1
}

# Whether a command that was looked up takes so many ids, or positions.
takes_ids() {
    case $takes in
    range) [ "$1" -eq 0 ] || [ "$1" -eq 2 ] ;;
    *+) [ "$1" -ge "${takes%+}" ] ;;
    *) [ "$1" -eq "$takes" ] ;;
    esac
}

# Whether a word is an id in hexadecimal.
is_id() {
    case $1 in
    *[!0-9a-fA-F]*) return 1 ;;
    esac
    [ ${#1} -eq 40 ] || [ ${#1} -eq 64 ]
}

# Whether a word is a number below 2^32, as it is printed.
is_number() {
    case $1 in
    0) return ;;
    '' | 0* | *[!0-9]*) return 1 ;;
    esac
    [ ${#1} -lt 10 ] || { [ ${#1} -eq 10 ] && [ "$1" -le 4294967295 ]; }
}

# Whether a word is a command of the program `name`.
is_own() {
    look_up "$1" && [ "$tool" = "$name" ]
}

# Whether words are a command of the program `name`, with a path and ids.
is_command() {
    [ $# -gt 0 ] && is_own "$1" || return 1
    shift
    case $reads,${1-} in
    trusted,--unchecked)
        shift
        [ "${1-}" != --newer ] || return 1
        ;;
    newer,--unchecked) shift ;;
    limited,--exact) shift ;;
    esac
    case $reads,${1-} in
    limited,--trees)
        is_number "${2-}" && [ $# -gt 2 ] || return 1
        shift 2
        ;;
    esac
    if [ "$reads" = newer ] && [ "${1-}" = --newer ]; then
        shift
        is_id "${1-}" || [ $# -eq 0 ] || shift
        takes_ids $#
        return
    fi
    case $reads,$# in
    path,0 | trusted,0 | newer,0 | limited,0) return 1 ;;
    optional,0) ;;
    path,* | trusted,* | newer,* | limited,* | optional,*) shift ;;
    esac
    takes_ids $#
}

# Whether words are `--help`, `-h` or `--version`, alone or after a command of the program `name`. Sets `wish` to `--help`
# or `--version` then.
wishes() {
    case $# in
    1) ;;
    2) is_own "$1" && shift || return 1 ;;
    *) return 1 ;;
    esac
    case $1 in
    -h | --help) wish=--help ;;
    --version) wish=--version ;;
    *) return 1 ;;
    esac
}

# The usage text of the program `name`.
usage() {
    awk -v name="$name" '
        /^#/ || $2 != name { next }
        {
            printf "%s %s", count++ ? " |" : "usage: " name, $1
            if ($3 == "path") printf " PATH"
            if ($3 == "trusted") printf " [--unchecked] PATH"
            if ($3 == "newer") printf " [--unchecked] [--newer] PATH"
            if ($3 == "limited") printf " [--exact] [--trees N] PATH"
            if ($3 == "optional") printf " [PATH]"
            for (id = 1; id <= $4 + 0; id++) printf " HEX"
            if ($4 ~ /\+/) printf ".."
            if ($4 == "range") printf " [FROM TO]"
        }
        END { print name == "historytool" ? " | --help | --version" : "" }
    ' "$top/tables/commands"
}

# What the program `name` takes and does.
help() {
    usage
    cat <<'END'

PATH is a commit-graph file, a folder with a chain of them, or an info folder.
HEX is the id of a commit in hexadecimal.
END
    if [ "$name" = historytool ]; then
        echo 'FROM and TO are positions: the first one, and the one after the last.'
        echo 'With --unchecked the graph is trusted: it is read by parts, and not checked.'
        echo 'With --newer the commits that the graph lacks are asked for, by their ids, on'
        echo 'standard output, and read from standard input. PATH may be left out then.'
        echo 'paths asks for trees in the same way, for each commit N at most. With --exact'
        echo 'each filter has to be the one that Git writes.'
    fi
    echo
    awk -v name="$name" '
        /^#/ || $2 != name { next }
        { word = $1; for (field = 1; field <= 5; field++) sub(/^[^ ]+ +/, ""); printf "%-14s  %s\n", word, $0 }
    ' "$top/tables/commands"
    cat <<'END'

The exit status is 0 where the graph is right, where something was found or
listed, or where the answer is yes; 1 where something was refused or not found,
or where the answer is no; 2 for wrong words, a text that is no id or a failed
write; and 3 where the program could not be proved or built.
END
}

# Ends with the usage text of the program `name` and status 2, as the program does for such words.
refuse_words() {
    usage >&2
    exit 2
}
