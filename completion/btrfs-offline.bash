# Completes the words, options and files of btrfs-offline in bash.

_btrfs_offline_images() {
    compopt -o filenames 2>/dev/null
    mapfile -t COMPREPLY < <(compgen -f -- "$1")
}

# _btrfs_offline_words CURRENT WORD..: offers these words
_btrfs_offline_words() {
    mapfile -t COMPREPLY < <(compgen -W "${*:2}" -- "$1")
}

# _btrfs_offline_restore CURRENT FIRST: the words after `restore`, which stands at FIRST
_btrfs_offline_restore() {
    local current=$1 at word options=' -r -s -v -D -i '
    for ((at = $2 + 1; at < COMP_CWORD; at++)); do
        word=${COMP_WORDS[at]}
        case $word in
        -r)
            # the number of the subvolume is the next word
            ((at + 1 == COMP_CWORD)) && return
            at=$((at + 1))
            options=${options/ -r / }
            ;;
        -s | -v)
            options=${options/ $word / }
            ;;
        -D | -i)
            # they exclude each other
            options=${options/ -D / }
            options=${options/ -i / }
            ;;
        *)
            # -l, or DEST: images follow
            options=
            break
            ;;
        esac
    done
    if [[ $current != -* ]]; then
        _btrfs_offline_images "$current"
    elif ((COMP_CWORD == $2 + 1)); then
        _btrfs_offline_words "$current" -l "$options" --help -h
    else
        _btrfs_offline_words "$current" "$options"
    fi
}

_btrfs_offline() {
    local current=${COMP_WORDS[COMP_CWORD]} first=1 command
    COMPREPLY=()
    while [[ ${COMP_WORDS[first]-} == --build ]] && ((COMP_CWORD > first)); do
        first=$((first + 1))
    done
    if ((COMP_CWORD <= first)); then
        _btrfs_offline_words "$current" super inspect-internal check scrub restore send self-test help --help -h --version --build
        return
    fi
    command=${COMP_WORDS[first]}
    case $command in
    super)
        if [[ $current == -* ]]; then
            ((COMP_CWORD == first + 1)) && _btrfs_offline_words "$current" --help -h
            return
        fi
        _btrfs_offline_images "$current"
        ;;
    inspect-internal)
        if ((COMP_CWORD == first + 1)); then
            _btrfs_offline_words "$current" dump-tree logical-resolve --help -h
        elif [[ ${COMP_WORDS[first + 1]} == logical-resolve ]]; then
            # the address is a number, and images follow it
            if [[ $current == -* ]]; then
                ((COMP_CWORD == first + 2)) && _btrfs_offline_words "$current" --help -h
            elif ((COMP_CWORD > first + 2)); then
                _btrfs_offline_images "$current"
            fi
        elif ((COMP_CWORD == first + 3)) && [[ ${COMP_WORDS[first + 2]} == -[bt] ]]; then
            return
        elif [[ $current == -* ]]; then
            ((COMP_CWORD == first + 2)) && _btrfs_offline_words "$current" -b -t -r --help -h
        else
            _btrfs_offline_images "$current"
        fi
        ;;
    check)
        if [[ $current == -* ]]; then
            ((COMP_CWORD == first + 1)) && _btrfs_offline_words "$current" --check-data-csum --help -h
            return
        fi
        _btrfs_offline_images "$current"
        ;;
    scrub)
        if ((COMP_CWORD == first + 1)); then
            _btrfs_offline_words "$current" start --help -h
        elif [[ $current == -* ]]; then
            ((COMP_CWORD == first + 2)) && _btrfs_offline_words "$current" -r --help -h
        else
            _btrfs_offline_images "$current"
        fi
        ;;
    restore)
        _btrfs_offline_restore "$current" "$first"
        ;;
    send)
        if ((COMP_CWORD == first + 1)) && [[ $current == -* ]]; then
            _btrfs_offline_words "$current" -r --help -h
        elif [[ $current != -* ]]; then
            _btrfs_offline_images "$current"
        fi
        ;;
    self-test)
        # the number of directories; no image follows it
        if ((COMP_CWORD == first + 1)) && [[ $current == -* ]]; then
            _btrfs_offline_words "$current" --help -h
        fi
        ;;
    esac
}

complete -F _btrfs_offline btrfs-offline
