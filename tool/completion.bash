# Completion of ./iox in bash, written by tool/manual.py: `source tool/completion.bash`
_iox() {
    local word=${COMP_WORDS[COMP_CWORD]} before=${COMP_WORDS[COMP_CWORD - 1]}
    case $before in
    --svg|--html|--expect|--listen|--against|--random)
        COMPREPLY=($(compgen -f -- "$word"))
        return
        ;;
    esac
    if [[ $word == -* ]]; then
        COMPREPLY=($(compgen -W "--proved --unproved --model --json --json=strings --svg --html --force --expect --strict --comments --listen --against --random --time --numbers -q --quiet -v --verbose --path --commands --version -h --help" -- "$word"))
    else
        COMPREPLY=($(compgen -f -X '!*.iox' -- "$word") $(compgen -d -- "$word"))
    fi
}
complete -o filenames -F _iox ./iox iox
