# Completion for bash of the commands m11, m11-build, m11-debug, m11-dump, m11-sav and m11-trace: source this file, or let ./install put it where
# bash-completion looks.

# Files whose names begin with the word and have one of these ends, in large or in small letters, and folders.
_m11_files() {
    local word=$1 end
    shift
    compopt -o filenames 2>/dev/null
    mapfile -t COMPREPLY < <(
        compgen -d -- "$word"
        for end in "${@}" "${@,,}"; do
            compgen -f -X "!*.$end" -- "$word"
        done
    )
}

# The option that must be the only word, where the word is the first one.
_m11_alone() {
    ((COMP_CWORD > 1)) || echo ' --version'
}

# Options where the word begins with a hyphen, and elsewhere files with one of the ends that follow.
_m11_words() {
    if [[ $1 == -* ]]; then
        mapfile -t COMPREPLY < <(compgen -W "$2" -- "$1")
    else
        _m11_files "$1" "${@:3}"
    fi
}

_m11() {
    local word=${COMP_WORDS[COMP_CWORD]} before=${COMP_WORDS[COMP_CWORD - 1]}
    COMPREPLY=()
    if ((COMP_CWORD == 1)); then
        mapfile -t COMPREPLY < <(compgen -W 'asm link sim -h --help --version' -- "$word")
        return
    fi
    case ${COMP_WORDS[1]}:$before in
        asm:-o | asm:--output) _m11_files "$word" OBJ ;;
        asm:-l | asm:--listing) _m11_files "$word" LST ;;
        link:-o | link:--output) _m11_files "$word" TAP ;;
        link:-m | link:--map) _m11_files "$word" MAP ;;
        link:-b | link:--bottom) ;;
        sim:-[nsk] | sim:--steps | sim:--start | sim:--words) ;;
        asm:*) _m11_words "$word" '-o --output -l --listing -h --help' MAC ;;
        link:*) _m11_words "$word" '-o --output -m --map -b --bottom -h --help' OBJ ;;
        sim:*) _m11_words "$word" '-n --steps -s --start -k --words -h --help' TAP ;;
    esac
}

_m11_dump() {
    COMPREPLY=()
    case ${COMP_WORDS[COMP_CWORD - 1]} in
        -y | --symbols) _m11_files "${COMP_WORDS[COMP_CWORD]}" MAP LST OBJ ;;
        -b | --bottom) ;;
        *) _m11_words "${COMP_WORDS[COMP_CWORD]}" '-d --disassemble -s --source -o --object -t --tape -m --map -b --bottom -y --symbols -h --help'"$(_m11_alone)" OBJ TAP ;;
    esac
}

_m11_trace() {
    COMPREPLY=()
    case ${COMP_WORDS[COMP_CWORD - 1]} in
        -y | --symbols) _m11_files "${COMP_WORDS[COMP_CWORD]}" MAP LST OBJ ;;
        -o | --output) _m11_files "${COMP_WORDS[COMP_CWORD]}" TRACE ;;
        -[nskflpwrb] | --steps | --start | --words | --from | --last | --place | --watch | --range | --bottom) ;;
        *) _m11_words "${COMP_WORDS[COMP_CWORD]}" '-n --steps -s --start -k --words -f --from -l --last -o --output -p --place -w --watch -r --range -y --symbols -t --text -b --bottom -h --help'"$(_m11_alone)" TAP ;;
    esac
}

_m11_build() {
    COMPREPLY=()
    case ${COMP_WORDS[COMP_CWORD - 1]} in
        -o | --output) _m11_files "${COMP_WORDS[COMP_CWORD]}" TAP ;;
        -m | --map) _m11_files "${COMP_WORDS[COMP_CWORD]}" MAP ;;
        --load-map) _m11_files "${COMP_WORDS[COMP_CWORD]}" LM MAP ;;
        -s | --save) _m11_files "${COMP_WORDS[COMP_CWORD]}" SAV ;;
        -L | --library) _m11_files "${COMP_WORDS[COMP_CWORD]}" OBJ ;;
        -y | --macros) _m11_files "${COMP_WORDS[COMP_CWORD]}" MAC SML ;;
        -l | --listings | -i | --include) _m11_files "${COMP_WORDS[COMP_CWORD]}" ;;
        *) _m11_words "${COMP_WORDS[COMP_CWORD]}" '-o --output -m --map --load-map -l --listings -L --library -y --macros -i --include -s --save -r --run --strict -v --verbose -h --help' MAC OBJ ;;
    esac
}

_m11_sav() {
    COMPREPLY=()
    case ${COMP_WORDS[COMP_CWORD - 1]} in
        -o | --output) _m11_files "${COMP_WORDS[COMP_CWORD]}" SAV TAP ;;
        *) _m11_words "${COMP_WORDS[COMP_CWORD]}" '-o --output -t --tape -w --words -h --help' TAP SAV ;;
    esac
}

_m11_debug() {
    COMPREPLY=()
    case ${COMP_WORDS[COMP_CWORD - 1]} in
        -y | --symbols) _m11_files "${COMP_WORDS[COMP_CWORD]}" LM MAP LST OBJ ;;
        -i | --input | -x | --commands)
            compopt -o filenames 2>/dev/null
            mapfile -t COMPREPLY < <(compgen -f -- "${COMP_WORDS[COMP_CWORD]}")
            ;;
        -[nskb] | --steps | --start | --words | --bottom) ;;
        *) _m11_words "${COMP_WORDS[COMP_CWORD]}" '-y --symbols -i --input -x --commands -n --steps -s --start -k --words -b --bottom -h --help'"$(_m11_alone)" TAP ;;
    esac
}

complete -F _m11 m11
complete -F _m11_build m11-build
complete -F _m11_dump m11-dump
complete -F _m11_sav m11-sav
complete -F _m11_trace m11-trace
complete -F _m11_debug m11-debug
