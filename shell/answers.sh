# What `graphtool` and `historytool` have in common. They read this file with `.`, with `top` set to the folder in which they
# stand and `name` to what they call themselves. It defines functions, and runs nothing.

newline='
'
passes=pass_on place='in the graph' cause='' where='' advice='' opened=''

# Says one line on standard error.
say() {
    printf '%s: %s\n' "$name" "$1" >&2
}

# The path of a proved program. Where this is no installed copy it is built first if a source is newer.
program_path() {
    if [ -x "$top/programs/$1" ]; then
        printf '%s\n' "$top/programs/$1"
    else
        "$top/building/program" "$1" </dev/null
    fi
}

# Sets `program` to the path of a proved program. Where it cannot be proved or built, what to do about that is said,
# and the answer is false.
find_program() {
    program=$(program_path "$1") && return
    line='the program could not be proved or built' status=3
    said="$name: $line$newline"
    report "$1" ''
    return 1
}

# Runs a program with some words, and passes on what it writes by the function `passes`. Sets `status` to its status, `line` to the
# first line that it wrote, and `said` to what it wrote on standard error. Where the answer could not be written, or a signal ended
# the program, `line` and `said` tell of that, and `status` is 2 or that of the signal.
#
# Standard output is 3 here, and 4 leads to the variable `told`.
ask() {
    line='' said='' status=2 passed=1
    if (exec 3>&1) 2>/dev/null; then
        exec 3>&1
        told=$({ { "$@" 2>&4 3>&- 4>&-; echo "status $?" >&4; } | "$passes" >&3 2>/dev/null; } 4>&1)
        passed=$?
        exec 3>&-
        take_apart "$told"
    fi
    case $passed,$said in
    0,*'the answer could not be written'* | [!0]*) status=2 line='the answer could not be written' ;;
    *)
        [ "$status" -gt 128 ] || return 0
        line="ended by signal $((status - 128))"
        ;;
    esac
    said="$name: $line$newline"
}

# Copies standard input to standard output. Its first line goes to 4 before that, so that nothing is written for a command that was
# ended meanwhile.
pass_on() {
    if ! IFS= read -r line; then
        printf %s "$line"
        return
    fi
    printf 'line %s\n' "$line" >&4 && printf '%s\n' "$line" && cat
}

# As `pass_on`, where the answer may be the bytes of a commit-graph file in place of lines: these begin with a C, as no line
# does, and are copied as they are.
pass_bytes_on() {
    first=$(dd bs=1 count=1 2>/dev/null)
    if [ "$first" = C ]; then
        printf %s "$first" && cat
    else
        { printf %s "$first" && cat; } | pass_on
    fi
}

# As `pass_on`, behind the ids of objects that are asked for, and the empty line that ends them.
pass_ids_on() {
    while IFS= read -r id; do
        printf '%s\n' "$id"
        [ -n "$id" ] || break
    done
    pass_on
}

# Sets `line`, `status` and `said` from the lines of what was told of a program.
take_apart() {
    rest=$1$newline
    while [ -n "$rest" ]; do
        part=${rest%%"$newline"*}
        rest=${rest#*"$newline"}
        case $part in
        'line '*) line=${part#line } ;;
        'status '*) status=${part#status } ;;
        *) said="$said$part$newline" ;;
        esac
    done
}

# After `ask`, says on standard error what the program said there, and, unless the status is 0, what `line` means
# and what to do: report COMMAND PATH [ID..], as the program was asked.
report() {
    printf %s "$said" >&2
    if [ "$status" -ne 0 ]; then
        look_at_graph "$@"
        explain "$@" >&2
    fi
}

# The path of the file on standard input, or nothing where that is no file.
input_path() {
    path=$(readlink /proc/self/fd/0) && [ -f "$path" ] && printf '%s\n' "$path"
}

# Whether something has a path, be it a link to nothing.
is_there() {
    [ -e "$1" ] || [ -L "$1" ]
}

# Why a file cannot be read, or nothing where it can.
obstacle() {
    if [ ! -e "$1" ] && [ -L "$1" ]; then
        echo 'is a link to what is not there'
    elif [ ! -e "$1" ]; then
        echo 'is missing'
    elif [ -d "$1" ]; then
        echo 'is a folder, not a file'
    elif [ ! -f "$1" ]; then
        echo 'is not a file'
    elif [ ! -r "$1" ]; then
        echo 'may not be read (permission denied)'
    fi
}

# The lines of a chain file as the programs read them, the last one with an end too: a CR before an end is left out.
lines_of() {
    { LC_ALL=C sed "s/$(printf '\r')\$//" "$1" 2>/dev/null && echo; } | sed '${/^$/d;}'
}

# Sets what is known of a refusal of a program by itself: `cause`, `where` and `advice`; and `opened`, the words for the files to
# be removed where the graph is written anew. The words are those of `report`.
look_at_graph() {
    asked_path=$2
    case $line in
    'unknown '*)
        shift 2
        cause=$(lacked "${line#unknown }" "$@")
        [ "$place" = 'in the graph' ] || advice="see what 'git fsck' says"
        return
        ;;
    'refused '*) [ -n "$asked_path" ] || return 0 ;;
    *) return 0 ;;
    esac
    name_opened "$asked_path"
    case $line in
    'refused open 1') cause="no file or folder is at '$asked_path'" ;;
    'refused open 2') find_obstacle_at "$asked_path" ;;
    'refused open '[46]' '*)
        file=$(chain_file_at "$asked_path")
        [ -z "$file" ] || where="the chain file is '$file'"
        ;;
    'refused file '*) [ ! -f "$asked_path" ] || where="the file is '$asked_path'" ;;
    'refused open 5 layer '* | 'refused verify '* | 'refused dates '* | 'refused filters '* | 'refused paths 1'[12]' '*) name_layer_at "$asked_path" ;;
    esac
}

# The sentence that an id is not there, in the graph or in the repository: lacked NUMBER ID..
lacked() {
    lacks=$1
    shift "$lacks"
    if [ "$lacks" -eq 1 ]; then
        echo "$1 is not $place"
    else
        echo "$1 is not $place; the ids given before it are"
    fi
}

# Sets `opened` to the files of the graph at a path: a file, a folder with a chain, or an info folder.
name_opened() {
    if [ -f "$1" ]; then
        opened="'$1'"
    elif is_there "$1/commit-graph-chain"; then
        opened="'$1/commit-graph-chain' and the layers beside it"
    elif ! is_there "$1/commit-graphs"; then
        ! is_there "$1/commit-graph" || opened="'$1/commit-graph'"
    elif ! is_there "$1/commit-graph"; then
        opened="the folder '$1/commit-graphs'"
    elif opens "$1/commit-graph"; then
        opened="'$1/commit-graph'"
    else
        opened="'$1/commit-graph' and the folder '$1/commit-graphs'"
    fi
}

# Sets `cause` to what is wrong with the first file that cannot be read of the graph at a path, if there is one, and `advice` to
# what to do about that. Where the file of an info folder was refused, a program speaks of the chain alone, which is not there.
find_obstacle_at() {
    chain=$1/commit-graph-chain
    is_there "$chain" || chain=$1/commit-graphs/commit-graph-chain
    if [ ! -d "$1" ]; then
        name_obstacle "$1"
    elif is_there "$chain"; then
        name_obstacle "$chain" || name_layer_obstacle
    elif ! is_there "$1/commit-graph"; then
        cause="there is neither '$1/commit-graph' nor a chain file '$chain'" reason=''
    elif ! name_obstacle "$1/commit-graph"; then
        cause="the file '$1/commit-graph' was refused, and there is no chain beside it"
        advice='give the path of that file, to see why it was refused'
    fi
    case $reason in
    '') ;;
    'may not be read'*) advice='see to it that whoever runs this may read the file, and ask again' ;;
    'is missing')
        advice="see whether another object folder has it: '$name' looks into no other, and 'git cgraph' does. Else write it anew"
        ;;
    *) advice='write it anew' ;;
    esac
}

# Sets `cause` to what is wrong with a file, and `reason` to the words for that. The answer is false where it can be read.
name_obstacle() {
    reason=$(obstacle "$1")
    [ -n "$reason" ] && cause="the file '$1'${2:+, which $2 names,} $reason"
}

# The same of the first layer beside the chain file `chain` that cannot be read.
name_layer_obstacle() {
    number=$(lines_of "$chain" | first_unread layer_beside)
    [ -n "$number" ] || return 0
    layer=$(lines_of "$chain" | sed -n "${number}p")
    name_obstacle "$(layer_beside "$layer")" "line $number of '$chain'"
}

# The path of the layer that a line of this chain file names.
layer_beside() {
    printf '%s\n' "${chain%/*}/graph-$1.graph"
}

# Whether a file can be read.
is_open() {
    [ -f "$1" ] && [ -r "$1" ]
}

# The number of the first line on standard input, from 1 on, whose layer cannot be read: first_unread COMMAND, which gives its path.
first_unread() {
    number=0
    while IFS= read -r layer; do
        number=$((number + 1))
        is_open "$("$1" "$layer")" || { echo $number && return; }
    done
}

# The chain file of the graph at a path, or nothing where none is there.
chain_file_at() {
    for chain in "$1/commit-graph-chain" "$1/commit-graphs/commit-graph-chain"; do
        [ ! -f "$chain" ] || { printf '%s\n' "$chain" && return; }
    done
}

# Sets `where` to the file of the layer of which `line` speaks, by its number or by a position, of the graph at a path.
name_layer_at() {
    case $line in
    *' layer '*) number=${line#* layer } ;;
    *' position '*)
        number=${line#* position }
        number=$(layer_of_position "$1" "${number%% *}")
        ;;
    *) return ;;
    esac
    chain=$(chain_file_at "$1") number=${number%% *}
    if [ -f "$1" ]; then
        where="the file is '$1'"
    elif [ -f "$1/commit-graph" ] && { [ -z "$chain" ] || opens "$1/commit-graph"; }; then
        where="the file is '$1/commit-graph'"
    elif [ -n "$chain" ] && [ -n "$number" ]; then
        where="layer $number is '${chain%/*}/graph-$(sed -n "$((number + 1))p" "$chain").graph'"
    fi
}

# Whether a file can be listed, if the program `graphtool` is there.
opens() {
    find_lister && "$lister" list <"$1" 2>/dev/null | head -n 1 | grep -q '^layer '
}

# The layer in which a position of the whole graph at a path is.
layer_of_position() {
    list_layers "$1" 2>/dev/null | awk -v position="$2" '
        /^layer / { layer++ }
        /^[0-9]/ && count++ == position { print layer - 1; exit }
    '
}

# Says what `line` means and what to do, by tables/refusals.tsv: explain COMMAND PATH [ID..]. What is known besides
# stands in `cause`, what happened, in place of what the table has; `where`, a sentence on the file of which the line speaks;
# `advice`, what to do in place of what the table has; and `opened`, the files to be removed where a graph is written anew. Each is
# empty where nothing is known.
explain() {
    command=$1 path=$2
    shift 2
    NAME=$name LINE=$line COMMAND=$command IDS=$* COMMIT=$(commit_at "$path") CAUSE=$cause WHERE=$where ADVICE=$advice \
        OPENED=$opened SIGNAL=$(signal_named) LC_ALL=C awk -f "$top/shell/explain.awk" "$top/tables/refusals.tsv"
}

# The number and the name of the signal that ended a program.
signal_named() {
    case $line in
    'ended by signal '*)
        number=${line##* }
        named=$(kill -l "$number" 2>/dev/null)
        printf '%s' "$number${named:+ (SIG${named#SIG})}"
        ;;
    esac
}

# The id of the commit of which a refusal speaks: that which it has, or that at its position, where the layers can be listed.
commit_at() {
    case $line in
    'refused newer '*' id '*) printf '%s\n' "${line##* id }" ;;
    'refused '*' position '*)
        position=${line#* position }
        list_layers "$1" 2>/dev/null |
            awk -v position="${position%% *}" '/^[0-9]/ && count++ == position { print $2; exit }'
        ;;
    esac
}

# Sets `lister` to the program `graphtool`, if it is there. Nothing is built for that.
find_lister() {
    lister=$top/programs/graphtool
    [ -x "$lister" ] || lister=$top/crates/graphtool/out/graphtool
    [ -x "$lister" ]
}

# Lists the layers of the graph at a path, in their order, if the program `graphtool` is there.
list_layers() {
    find_lister || return
    if [ -f "$1" ]; then
        "$lister" list <"$1"
    elif [ -f "$1/commit-graph-chain" ]; then
        while IFS= read -r layer || [ -n "$layer" ]; do
            "$lister" list <"$1/graph-$layer.graph" || return
        done <"$1/commit-graph-chain"
    else
        [ -f "$1/commit-graph" ] && "$lister" list <"$1/commit-graph" && return
        [ ! -d "$1/commit-graphs" ] || list_layers "$1/commit-graphs"
    fi
}
