# What the scripts of rows share. `source rows.sh CRATE [PROGRAM]` finds the program, without PROGRAM the one that `rt ci` built, makes an empty
# folder, goes there, and counts the rows that pass and fail. A script ends with `tell`.
program=${2:-$(dirname "${BASH_SOURCE[0]}")/../crates/$1/out/$1}
if [ ! -f "$program" ] || [ ! -x "$program" ]; then
    echo "no program at $program" >&2
    exit 2
fi
program=$(cd "$(dirname "$program")" && pwd)/$(basename "$program")

work=$(mktemp -d)
trap 'rm -rf "$work"' EXIT
cd "$work" || exit 2

passed=0
failed=0
input=/dev/null

pass() {
    passed=$((passed + 1))
}

# fail TEXT..: a row fails, which the text says.
fail() {
    failed=$((failed + 1))
    echo "FAILED $*"
}

# row NAME STATUS STDOUT STDERR WORD..: runs the program on the words, with standard input from $input. The texts are
# given with printf's escapes.
row() {
    local name=$1 status=$2 got
    printf '%b' "$3" >"$work/wanted.out"
    printf '%b' "$4" >"$work/wanted.err"
    shift 4
    "$program" "$@" <"$input" >"$work/got.out" 2>"$work/got.err"
    got=$?
    if [ "$got" -eq "$status" ] && cmp -s "$work/got.out" "$work/wanted.out" && cmp -s "$work/got.err" "$work/wanted.err"; then
        pass
    else
        fail "$name: status $got for $status"
        diff "$work/wanted.out" "$work/got.out" | head -8
        diff "$work/wanted.err" "$work/got.err" | head -8
    fi
}

# succeeds NAME WORD..: the command ends well.
succeeds() {
    local name=$1
    shift
    if "$@" >"$work/said" 2>&1; then pass; else fail "$name: $(tail -2 "$work/said")"; fi
}

# same NAME FILE FILE: the files have the same bytes.
same() {
    if cmp -s "$2" "$3"; then pass; else fail "$1: $2 and $3 differ"; fi
}

# nested NAME COUNT FRONT OPEN INNER CLOSE REST: writes NAME.rnc, with so many times OPEN before INNER and CLOSE after it.
nested() {
    {
        printf '%b' "$3"
        printf -- "$4%.0s" $(seq "$2")
        printf '%b' "$5"
        printf -- "$6%.0s" $(seq "$2")
        printf '%b\n' "$7"
    } >"$1.rnc"
}

# deep_texts: writes `deep-*.rnc`, texts with 256 brackets open at once, of each kind and of mixtures. In the starred ones three patterns are
# in each bracket; the excepts within excepts of names are refused.
deep_texts() {
    local b='\nb = element b { empty }'
    nested deep-elements 256 'start = ' 'element a { ' text ' }' ''
    nested deep-attributes 255 'start = element a { ' 'attribute b { ' text ' }' ' }'
    nested deep-choices 255 'start = ' '(element a { text } | ' empty ')' ''
    nested deep-groups 255 'start = element a { ' '(b, ' b ')' " }$b"
    nested deep-interleaves 255 'start = element a { ' '(b & ' b ')' " }$b"
    nested deep-lists 255 'start = element a { ' 'list { ' '"a"' ' }' ' }'
    nested deep-mixed 255 'start = element a { ' 'mixed { ' b ' }' " }$b"
    nested deep-excepts 255 'start = element a { ' 'xsd:string - (' '"a"' ')' ' }'
    nested deep-choices-of-excepts 255 'start = element a { ' 'xsd:string - ("b" | ' '"a"' ')' ' }'
    nested deep-name-classes 256 'start = element ' '(a | ' b ')' ' { text }'
    nested deep-name-excepts 256 'start = element * - ' '(a | ' b ')' ' { text }'
    nested deep-excepts-of-excepts 256 'start = element ' '* - (a | ' b ')' ' { text }'
    nested deep-annotations 255 'start = [ ' 'x:a [ ' '' '] ' '] element a { text }'
    nested deep-divs 256 '' 'div { ' 'start = text' ' }' ''
    nested deep-parentheses 256 'start = ' '(' text ')' ''
    nested deep-starred-elements 255 'start = element r { ' 'element a { b, ' b ' }*' " }$b"
    nested deep-starred-attributes 255 'start = element r { ' 'attribute a { b, ' b ' }*' " }$b"
    nested deep-starred-lists 255 'start = element r { ' 'list { "b", ' '"b"' ' }*' ' }'
    nested deep-starred-mixed 255 'start = element r { ' 'mixed { b, ' b ' }*' " }$b"
    nested deep-starred-groups 255 'start = element r { ' '(b, ' b ')*' " }$b"
    nested deep-mixtures 85 'start = element r { ' 'element a { b, mixed { b, (b | ' b ')+ }* }*' " }$b"
}

# shallow NAME WORD..: with a stack of $stack KiB, or 512, the program ends as it does with more, and writes what it writes with more.
shallow() {
    local name=$1 whole got
    shift
    "$program" "$@" >"$work/wanted.out" 2>"$work/wanted.err"
    whole=$?
    (ulimit -s "${stack:-512}" && exec "$program" "$@") >"$work/got.out" 2>"$work/got.err"
    got=$?
    if [ "$whole" -le 1 ] && [ "$got" -eq "$whole" ] && cmp -s "$work/got.out" "$work/wanted.out" && cmp -s "$work/got.err" "$work/wanted.err"; then
        pass
    else
        fail "$name: status $whole, with a stack of ${stack:-512} KiB $got: $(head -1 "$work/wanted.err")"
    fi
}

# tell: the last line, and the status.
tell() {
    echo "$passed passed, $failed failed"
    [ "$failed" -eq 0 ]
}
