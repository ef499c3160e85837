# To be read by scripts of sh, at the top.
#
# command_line MOST FLAGS WORD..: with --help among the words, prints the comment at the head of the script, and ends it; more than MOST words, or a flag that
# isn't among FLAGS, are refused with status 2
command_line() {
    most=$1
    flags=$2
    shift 2
    for word in "$@"; do
        case " $flags " in
        *" $word "*)
            most=$((most + 1))
            continue
            ;;
        esac
        case $word in
        -h | --help)
            sed -n '2,/^[^#]/s/^# \{0,1\}//p' "$0"
            exit 0
            ;;
        -*)
            echo "$0: there is no $word: --help says what it takes" >&2
            exit 2
            ;;
        esac
    done
    if [ $# -gt "$most" ]; then
        echo "$0: $# words are too many: --help says what it takes" >&2
        exit 2
    fi
}
