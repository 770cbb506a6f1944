# For a shell that starts arpasim: an input that is named, and what helps after a fault. ./arpasim of a clone reads this, and so does arpasim.sh
# of the wheel and of the package for Debian; web/run/named.mjs does the same by Node (python/tests/test_named.py tries all by one table).
#
# A word that is no option names the input, and `-` is standard input. `how` is what explains a fault here (`./explain`, `dorydate explain`),
# `called` the program's own name, `examples` the folder of examples, and `input` what was named.

# Says in one line why nothing is run, and ends.
refuse() {
    printf 'arpasim: %s\n' "$*" >&2
    exit 1
}

# Takes a word that names the input.
named() {
    case $1 in
        '' | -?*) return 1 ;;
    esac
    [ -z "$input" ] || refuse "one input at a time, and these are two: $input, $1"
    input=$1
}

# Says which command a word without a slash is.
not_a_file() {
    case $input in
        explain | explore | export | keeps) refuse "$input is a command of its own: ${how%explain}$input" ;;
        examples | page | live | conformance) [ "$how" = ./explain ] || refuse "$input is a command of its own: ${how%explain}$input" ;;
    esac
    [ ! -e "$input" ] || return 0
    case $input in
        help | version) refuse "there is no file $input; is $called --$input meant?" ;;
    esac
    [ ! -f "$examples/$input" ] || refuse "there is no file $input; the example is $called $examples/$input"
}

# Opens the input as standard input, or says what is wrong with its name.
open_named() {
    if [ -z "$input" ] || [ "$input" = - ]; then return; fi
    case $input in
        */*) ;;
        *) not_a_file ;;
    esac
    if [ -d "$input" ]; then refuse "$input is a folder; an input is a file"; fi
    [ -e "$input" ] || refuse "there is no file $input; $called --help says how it is called"
    [ -r "$input" ] || refuse "$input may not be read"
    exec < "$input"
}

# The number of the line `%` of an input that can be read once more: one that is named, or a file that the shell has opened.
marker() {
    if [ ! -f /dev/stdin ]; then return; fi
    LC_ALL=C sed -n '/^%$/{=;q;}' < /dev/stdin 2> /dev/null
}

# What helps after a fault, of the words that were given.
cure() {
    file=LOG
    case $1 in *"bad log"*) ;; *) file=FILE ;; esac
    if [ -n "$input" ] && [ "$input" != - ]; then file=$input; fi
    case $1 in
        "arpasim: bad script line "*)
            line=$(marker)
            number=${1##* }
            [ -z "$line" ] || echo "arpasim: that is line $((line + number)) of the file, since lines of the script are counted from the \`%\`"
            echo "arpasim: $how < $file tells why"
            ;;
        "arpasim: bad topology"*) echo "arpasim: $how < $file tells why" ;;
        "arpasim: bad log line"*) echo "arpasim: $how --audit < $file tells why" ;;
        "arpasim: bad arguments"*)
            shift
            for word in "$@"; do
                case $word in
                    --chart | --page | --expect | --promise | --worksheet | --answers | --slides) echo "arpasim: $word is an option of $how" ;;
                    --pcapng | --svg | --perfetto | --shiviz) echo "arpasim: $word is an option of ${how%explain}export" ;;
                    --log | --trace | --audit) [ $# -eq 1 ] || echo "arpasim: $word is the only option where it is given" ;;
                esac
            done
            echo "arpasim: $called --help has the options"
            ;;
    esac
}

# the words that are left are options, and standard input is what was named
input=
count=$#
while [ "$count" -gt 0 ]; do
    word=$1
    shift
    count=$((count - 1))
    [ "$word" != -h ] || word=--help
    named "$word" || set -- "$@" "$word"
done
open_named
case "$*" in
    --help | --version) ;;
    *) [ ! -t 0 ] || echo "arpasim: reading from the terminal; Ctrl-D ends the input" >&2 ;;
esac
