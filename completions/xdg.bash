# Completion of xdg for bash: commands, options of the command, and files.
#
#     source completions/xdg.bash
#
# It serves `./xdg` too, since bash looks for the name behind the last slash.

_xdg_files() {
    local IFS=$'\n'
    COMPREPLY=($(compgen -f -- "$1"))
    compopt -o filenames 2>/dev/null
}

_xdg() {
    local word=${COMP_WORDS[COMP_CWORD]} before=${COMP_WORDS[COMP_CWORD - 1]} options=
    COMPREPLY=()
    # bash cuts `--text=1` into three words
    if [ "$word" = "=" ]; then
        word=
    elif [ "$before" = "=" ]; then
        before=${COMP_WORDS[COMP_CWORD - 2]}
    fi
    if [ "$COMP_CWORD" -eq 1 ]; then
        COMPREPLY=($(compgen -W "parse resume explain check lexicon print drill corpus arrange best" -- "$word"))
        return
    fi
    case ${COMP_WORDS[1]} in
        parse) options="--budget --first --rules --segment --split --text" ;;
        resume) options="--budget --first --rules --text" ;;
        explain) options="--rules" ;;
        corpus) options="--budget --first --segment" ;;
        arrange | best) options="--budget --segment" ;;
    esac
    case $before in
        --text) COMPREPLY=($(compgen -W "1 2" -- "$word")) && return ;;
        --budget | --first) return ;;
        --rules) _xdg_files "$word" && return ;;
    esac
    case $word in
        -*) COMPREPLY=($(compgen -W "$options" -- "$word")) ;;
        *) _xdg_files "$word" ;;
    esac
}

complete -F _xdg xdg
