# Completes the words of pdl for bash. Written by tools/installed_files.py from README.md.
_pdl() {
    local IFS=$' \t\n' word=${COMP_WORDS[COMP_CWORD]} before=${COMP_WORDS[COMP_CWORD - 1]} endings='' delays='' place=0 k
    COMPREPLY=()
    if [ "$COMP_CWORD" -eq 1 ]; then
        COMPREPLY=($(compgen -W "check run wave view seq build sim asm gen" -- "$word"))
        return
    fi
    case ${COMP_WORDS[1]} in
        check) endings="pdl" ;;
        run) endings="pdl img number" delays=yes ;;
        wave) endings="pdl img number" delays=yes ;;
        view) endings="pdl img number" delays=yes ;;
        seq) endings="pdl img number" ;;
        build) endings="pdl" ;;
        sim) endings="v img number" delays=yes ;;
        asm) endings="toml asm" ;;
        gen) endings="number" ;;
        *) return ;;
    esac
    # An option and its value may stand anywhere, and bash takes `=` for a word.
    for ((k = 2; k < COMP_CWORD; k++)); do
        case ${COMP_WORDS[k]} in
            --delays) delays='' k=$((k + 1)); [ "${COMP_WORDS[k]}" != = ] || k=$((k + 1)) ;;
            *) place=$((place + 1)) ;;
        esac
    done
    endings=($endings)
    if [ "$before" = --delays ] || [ "$before${COMP_WORDS[COMP_CWORD - 2]}" = =--delays ]; then
        _pdl_files delays "${word#=}"
    elif [ -n "$delays" ] && [[ $word == -* ]]; then
        COMPREPLY=(--delays)
    elif [ "${endings[place]:-number}" != number ]; then
        _pdl_files "${endings[place]}" "$word"
    fi
}

# The files with an ending and the folders; all files where there is none of these.
_pdl_files() {
    local IFS=$'\n'
    COMPREPLY=($(compgen -f -X "!*.$1" -- "$2"; compgen -d -- "$2"))
    [ ${#COMPREPLY[@]} -gt 0 ] || COMPREPLY=($(compgen -f -- "$2"))
}

complete -o filenames -F _pdl pdl
