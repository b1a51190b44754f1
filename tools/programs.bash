# What the scripts know of the built programs: their names, their crates, the sums of their sources, and what dist/MANIFEST says of them. To be
# sourced, with `top`, the folder of the repository, set.
#
# A MANIFEST has a line for each program beside it: its name, and then pairs of a word and a value, of which the last may have spaces:
#   m11 sha256 SUM sources SUM version 1.0.0 kit rattle-kit-13f logic dac8208d650f15bf
# `sha256` is the sum of the program itself, `sources` that of all its sources, `kit` the line of `rt version`. In out/, where ./prove puts the
# programs that it built, `commit CHECKOUT` stands before the kit: dist/ is of the commit that has it.

# The names of the programs.
names=(m11 m11-dump m11-trace)

# The crate whose program has this name.
crate_of() {
    case $1 in
        m11) echo m11 ;;
        m11-dump) echo m11_dump_program ;;
        m11-trace) echo m11_trace_program ;;
        *) return 1 ;;
    esac
}

# The names of what there is in dist/ beside the programs, if web/dist has put it there: a page with a module of WebAssembly, and the module for Node.
# Both are made of the crate m11_web and of web/, and the page has the examples too.
web_names() {
    [[ ! -e $top/dist/m11.html ]] || echo m11.html m11.mjs
}

# The lines of crates.txt, in this folder, of these crates and of those that they stand on.
lists() {
    local from=$1
    shift
    awk -F': *' '
        function visit(name,    count, i, names) {
            if (name in seen || !(name in line)) return
            seen[name]; print line[name]
            count = split(below[name], names, " ")
            for (i = 1; i <= count; i++) visit(names[i])
        }
        !/^#/ { name = $1; sub(/ staticlib$/, "", name); line[name] = $0; below[name] = $2 }
        END { count = split(roots, root, " "); for (i = 1; i <= count; i++) visit(root[i]) }' roots="$*" "$from/crates.txt"
}

# The paths, from this folder, of these parts of the crates whose lines come in.
parts() {
    local from=$1 each part
    shift
    while IFS=': ' read -r each _; do
        for part; do
            [[ -e $from/crates/$each/$part ]] && echo "crates/$each/$part"
        done
    done
}

# A sum of the lines and of all the sources, in this folder, of the program with this name: those of its crate and of the crates that it stands
# on, and for the page and the module for Node what else they are made of. It is the same wherever they lie.
sum_of_sources() {
    local crate
    local -a here others=()
    case $2 in
        m11.html | m11.mjs) crate=m11_web others=(web examples) ;;
        *) crate=$(crate_of "$2") || return ;;
    esac
    mapfile -t here < <(lists "$1" "$crate" | parts "$1" src specs proofs)
    {
        lists "$1" "$crate"
        cd -- "$1" && {
            find "${here[@]}" -type f \( -name '*.rt' -o -name '*.antt' \) -print0
            ((${#others[@]} == 0)) || find "${others[@]}" -name tests -prune -o -name __pycache__ -prune -o -type f -print0
        } | LC_ALL=C sort -z | xargs -0 sha256sum
    } | sha256sum | cut -d ' ' -f 1
}

# The sum of a file.
sum_of_file() {
    sha256sum <"$1" | cut -d ' ' -f 1
}

# What the MANIFEST of a folder says of a program: of its `sha256`, `sources`, `version` or `kit`. Nothing, if it doesn't name the program.
told() {
    local at
    local -a words
    [[ -r $1/MANIFEST ]] || return 0
    while read -ra words; do
        [[ ${words[0]-} == "$2" ]] || continue
        for ((at = 1; at + 1 < ${#words[@]}; at += 2)); do
            if [[ $3 == kit && ${words[at]} == kit ]]; then
                echo "${words[*]:at + 1}"
            elif [[ ${words[at]} == "$3" ]]; then
                echo "${words[at + 1]}"
            fi
        done
    done <"$1/MANIFEST"
}

# The line of the MANIFEST of out/ for the program of this name in a folder, with the sum of its sources, their commit and the kit.
told_line() {
    echo "$2 sha256 $(sum_of_file "$1/$2") sources $3 version $(<"$top/VERSION") commit $4 kit $5"
}

# Copies a program without its symbols: with the kit's own tool, which is the compiler under another name, so that the same program is the same
# file everywhere; or with that of the system, if the kit has none.
take_symbols() {
    local clang
    clang=$(dirname -- "$(rt doc)")/toolchain/bin/clang || return
    (exec -a llvm-strip "$clang" -o "$2" -- "$1") || strip -o "$2" -- "$1"
}

# Copies the programs with these names, which `rt ci` built below a folder, into another one, without their symbols.
take_built() {
    local from=$1 to=$2 name crate
    shift 2
    for name; do
        crate=$(crate_of "$name") && take_symbols "$from/crates/$crate/out/$crate" "$to/$name" && chmod 755 -- "$to/$name" || return
    done
}

# Whether dist/ is of these sources. Says why not, for each program, and for the page and the module for Node.
is_dist_of_sources() {
    local name status=0
    for name in "${names[@]}" $(web_names); do
        if [[ ! -f $top/dist/$name || -z $(told "$top/dist" "$name" sha256) ]]; then
            echo "dist/ has no $name, or its MANIFEST doesn't name it"
        elif [[ $(sum_of_file "$top/dist/$name") != "$(told "$top/dist" "$name" sha256)" ]]; then
            echo "dist/$name isn't the file that dist/MANIFEST names"
        elif [[ $(sum_of_sources "$top" "$name") != "$(told "$top/dist" "$name" sources)" ]]; then
            echo "dist/$name is of other sources than those here"
        elif [[ $(told "$top/dist" "$name" version) != "$(<"$top/VERSION")" ]]; then
            echo "dist/$name has another version than the file VERSION"
        else
            continue
        fi
        status=1
    done
    ((status == 0)) || echo "./prove --dist proves the sources that are here, and puts their programs into dist/"
    return "$status"
}
