# Completion of the command dovetrellis for bash: its words, their options, files, and the runs and events of a text table.

# A word of the line as the shell would take it, without its quotes and backslashes; nothing that stands in it is run.
_dovetrellis_plain() { # WORD
    local at letter quote='' plain=''
    for ((at = 0; at < ${#1}; at++)); do
        letter=${1:at:1}
        case $quote$letter in
            "''" | '""') quote='' ;;
            "'" | '"') quote=$letter ;;
            \\ | '"\') at=$((at + 1)) plain+=${1:at:1} ;;
            *) plain+=$letter ;;
        esac
    done
    [[ $1 != '~/'* ]] || plain=$HOME/${plain:2}
    printf '%s\n' "$plain"
}

# The runs, or the events, that a text table states by name. The text is not read as the command reads it: a name at the beginning of a
# line is what counts.
_dovetrellis_names() { # runs|events TABLE
    local table run='s/^[[:space:]]*run[[:space:]]\{1,\}\([^:#[:space:]]*\)[[:space:]]*:.*/\1/p'
    local event='/^[[:space:]]*start[[:space:]]*:/d; s/^[[:space:]]*\([^:#[:space:]]*\)[[:space:]]*:[[:space:]]*{.*/\1/p'
    table=$(_dovetrellis_plain "$2")
    [ ! -f "$table" ] || case $1 in
        runs) sed -n "$run" < "$table" 2> /dev/null ;;
        events) sed -n "$event" < "$table" 2> /dev/null ;;
    esac
}

# The runs, or the events, of a table that begin with a word. Whoever wrote the table chose their names, so they are never handed to what
# would expand them, and one that is outside the notation is left out.
_dovetrellis_offered() { # runs|events TABLE WORD
    local name
    while IFS= read -r name; do
        [[ -z $name || $name = -* || $name = *[![:alnum:]_-]* || $name != "$3"* ]] || printf '%s\n' "$name"
    done < <(_dovetrellis_names "$1" "$2")
}

# The options of a command.
_dovetrellis_options() { # COMMAND
    case $1 in
        list) echo "--names --json" ;;
        judge) echo "--strict --json" ;;
        fire | enabled) echo "--at" ;;
        unfold) echo "--json" ;;
        pack) echo "-o" ;;
    esac
    echo "--help"
}

# What may stand at the place after a table, or after none.
_dovetrellis_places() { # COMMAND [TABLE [OTHERS...]]
    case $1:$# in
        install:1) echo folders ;;
        build:*) echo parts ;;
        help:1) echo commands ;;
        help:* | install:*) ;;
        *:1 | witness:2) echo files ;;
        list:* | judge:* | replay:* | show:* | enabled:2 | exchange:2) echo runs files ;;
        fire:2) echo events ;;
    esac
}

# The words before the one that is completed, without options and what belongs to them.
_dovetrellis_words() { # WORDS...
    _dovetrellis_given=()
    while [ $# -gt 0 ]; do
        case $1 in
            -o | --at) shift ;;
            -?*) ;;
            *) _dovetrellis_given+=("$1") ;;
        esac
        shift || break
    done
}

_dovetrellis() {
    local commands="list judge replay fire enabled exchange unfold export witness pack show install build help"
    local word=${COMP_WORDS[COMP_CWORD]} before=${COMP_WORDS[COMP_CWORD - 1]} place found=() _dovetrellis_given
    _dovetrellis_words "${COMP_WORDS[@]:1:COMP_CWORD-1}"
    if [ "$COMP_CWORD" -eq 1 ]; then
        mapfile -t COMPREPLY < <(compgen -W "$commands --help --version" -- "$word")
        return
    fi
    case $before:$word in
        -o:*) mapfile -t COMPREPLY < <(compgen -d -- "$word") && compopt -o filenames && return ;;
        --at:*) return ;;
        *:-*) mapfile -t COMPREPLY < <(compgen -W "$(_dovetrellis_options "${COMP_WORDS[1]}")" -- "$word") && return ;;
    esac
    for place in $(_dovetrellis_places "${_dovetrellis_given[@]}"); do
        case $place in
            runs | events) mapfile -t found < <(_dovetrellis_offered "$place" "${_dovetrellis_given[1]}" "$word") ;;
            files) mapfile -t found < <(compgen -f -- "$word") && compopt -o filenames ;;
            folders) mapfile -t found < <(compgen -d -- "$word") && compopt -o filenames ;;
            parts) mapfile -t found < <(compgen -W "library list export archive" -- "$word") ;;
            commands) mapfile -t found < <(compgen -W "$commands" -- "$word") ;;
        esac
        COMPREPLY+=("${found[@]}")
    done
}
complete -F _dovetrellis dovetrellis
