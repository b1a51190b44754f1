# Runs a built program: to be sourced by the scripts at the top that are called as their programs.
#
# They set `top`, the folder of the repository or of a release, and `name`, by which the program is called. Then `run_program WORD...` becomes
# the program in out/, which ./prove built here, or else the one in dist/. The caller's arguments, folder and standard streams are the program's
# own. `each_option FUNCTION WORD...` reads the words as the programs do, and `refuse` ends a script before its program runs. Nothing is built, and
# no source is looked at: only --version does that. Where the program can't be run the status is 70, which no program leaves. This is the shell's
# plain language, without another process, so a call costs less than a millisecond over the program itself.

refuse() {
    printf '%s\n' "$name: $1" >&2
    exit 2
}

# Calls a function with each option of a call and its value, as the programs read them, and with an empty option and the word for each other word.
# Nothing more is called after a question for help. Options without a value, which are those of `flags`, are left out.
flags=
each_option() {
    called=$1 only_paths=
    shift
    while [ $# -gt 0 ]; do
        word=$1 option= value=$1
        shift
        case $only_paths$word in
            --) only_paths=1 && continue ;;
            -h | --help) return ;;
            --*=*) option=${word%%=*} value=${word#*=} ;;
            -[!-]?*)
                value=${word#-?} && option=${word%"$value"}
                ! is_flag "$option" || { set -- "-$value" "$@" && continue; }
                value=${value#=}
                ;;
            -?*)
                ! is_flag "$word" || continue
                option=$word value=${1-} && [ $# -eq 0 ] || shift
                ;;
        esac
        "$called" "$option" "$value"
    done
}

is_flag() {
    case " $flags " in *" $1 "*) ;; *) return 1 ;; esac
}

run_program() {
    if [ $# -eq 1 ] && [ "$1" = --version ]; then
        exec "$top/tools/version" "$name"
    fi
    if [ ! -e /lib64/ld-linux-x86-64.so.2 ]; then
        refuse_machine
    fi
    program=$top/out/$name
    [ -x "$program" ] || program=$top/dist/$name
    if [ ! -x "$program" ]; then
        printf '%s\n' "$name: $program can't be run: it isn't there, or its folder admits no programs" >&2
        exit 70
    fi
    exec "$program" "$@"
}

# Says what runs where. The file that is asked for is the loader of programs for Linux on x86-64 with the GNU C library.
refuse_machine() {
    printf '%s\n' "$name: this program runs on Linux on x86-64 with the GNU C library (glibc 2.34 or later), and this is $(uname -sm)," \
        "without /lib64/ld-linux-x86-64.so.2; the scripts for old sources (tools/adapt, lines, sav, unlib, unmac) run wherever Python 3 does" >&2
    exit 70
}
