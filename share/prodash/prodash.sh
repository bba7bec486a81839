# Progress of a shell script: rows below `prodash run`, and nothing without it.
#
#     . "$(prodash --lib sh)"
#     all=$(prodash_task compress $# files)
#     for file; do
#         gzip "$file" && prodash_step "$all"
#     done
#     prodash_done "$all" "$# files are compressed"
#
# prodash_task NAME [MAX [UNIT]]        adds a task, and prints the word that stands for it
# prodash_child TASK NAME [MAX [UNIT]]  the same, below a task
# prodash_step TASK [N]                 adds 1 or N to the step of a task
# prodash_set TASK N                    sets the step of a task
# prodash_say TEXT ..                   prints a message of the script above the rows
# prodash_done TASK [TEXT]              removes a task; TEXT is a message of its success
# prodash_fail TASK [TEXT]              removes a task; TEXT is a message of its failure
#
# MAX is - if it isn't known. The word of a task is of no other process, and every process of the
# job may use it, also in event lines of its own. None of these functions fails or says anything.
#
# This file needs no other one, and may be copied. It uses names that begin with prodash_ or
# _prodash_, and works in any POSIX shell.

# Succeeds if PRODASH_FD is one digit, and open on the file that PRODASH_FD_ID names, if any.
_prodash_is_read() {
    case ${PRODASH_FD-} in
        [3-9]) ;;
        *) return 1 ;;
    esac
    [ -n "${PRODASH_FD_ID-}" ] || return 0
    # the first is that of Linux, the other that of BSD
    _prodash_id=$(
        stat -L -c %d:%i "/dev/fd/$PRODASH_FD" 2>/dev/null ||
            stat -L -f %d:%i "/dev/fd/$PRODASH_FD" 2>/dev/null
    )
    [ "$_prodash_id" = "$PRODASH_FD_ID" ]
}

if _prodash_is_read; then
    # Prints a word that is used nowhere else.
    _prodash_word() {
        _prodash_random=$(od -An -N8 -tx8 /dev/urandom)
        printf '@%s\n' "${_prodash_random##* }"
    }

    # Writes a line at once, with a space in place of each control character. One that is too long
    # to stay whole among those of other processes is cut.
    _prodash_write() {
        _prodash_line=$1
        if [ ${#_prodash_line} -gt 1000 ]; then
            _prodash_line=$(_prodash_cut "$_prodash_line")
        fi
        while :; do
            case $_prodash_line in
                *[[:cntrl:]]*) ;;
                *) break ;;
            esac
            _prodash_rest=${_prodash_line#*[[:cntrl:]]}
            _prodash_line="${_prodash_line%%[[:cntrl:]]*} $_prodash_rest"
        done
        { printf '%s\n' "$_prodash_line" >&"$PRODASH_FD"; } 2>/dev/null || :
    }

    # Prints at most 1000 bytes of a line, without a character of which the end is missing.
    _prodash_cut() {
        printf '%s\n' "$1" | LC_ALL=C tr '[:cntrl:]' ' ' | LC_ALL=C cut -b 1-1000 |
            iconv -c -f UTF-8 -t UTF-8 2>/dev/null || :
    }
else
    _prodash_word() { echo @none; }
    _prodash_write() { :; }
fi

prodash_task() { prodash_child 0 "$@"; }

prodash_child() {
    _prodash_task=$(_prodash_word)
    _prodash_write "add $_prodash_task ${1-} ${2-}"
    if [ $# -gt 2 ]; then
        _prodash_write "init $_prodash_task ${3:--} ${4:--}"
    fi
    printf '%s\n' "$_prodash_task"
}

prodash_step() { _prodash_write "inc ${1-} ${2-1}"; }

prodash_set() { _prodash_write "set ${1-} ${2-}"; }

prodash_say() {
    _prodash_text=
    for _prodash_it; do
        _prodash_text="$_prodash_text $_prodash_it"
    done
    # a message is that of a task
    _prodash_task=$(_prodash_word)
    _prodash_write "add $_prodash_task 0 ${0##*/}"
    _prodash_write "info $_prodash_task -${_prodash_text:- }"
    _prodash_write "drop $_prodash_task"
}

prodash_done() {
    if [ -n "${2-}" ]; then
        _prodash_write "done ${1-} - $2"
    fi
    _prodash_write "drop ${1-}"
}

prodash_fail() {
    _prodash_write "fail ${1-} - ${2:-failed}"
    _prodash_write "drop ${1-}"
}
