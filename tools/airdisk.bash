# Made by tools/manual from the text of airdisk --help. To have bash complete the words of airdisk: . tools/airdisk.bash
_airdisk() {
    local word=${COMP_WORDS[COMP_CWORD]} ending
    COMPREPLY=()
    if [ "$COMP_CWORD" -eq 1 ]; then
        mapfile -t COMPREPLY < <(compgen -W 'plan split script tune beam seek drill audit run cast listen --help -h --version -V help --build' -- "$word")
        return
    fi
    case ${COMP_WORDS[1]}.$COMP_CWORD in
    plan.2 | split.2 | script.2 | tune.2 | beam.2 | audit.2 | run.2 | cast.2 | listen.2) ending=csv ;;
    script.3 | tune.3 | beam.3 | seek.2 | run.3) ending=tape ;;
    audit.3) ending= ;;
    help.2)
        mapfile -t COMPREPLY < <(compgen -W 'plan split script tune beam seek drill audit run cast listen help' -- "$word")
        return
        ;;
    *) return ;;
    esac
    compopt -o filenames 2>/dev/null
    mapfile -t COMPREPLY < <(compgen -f -X "${ending:+!*.$ending}" -- "$word"; compgen -d -- "$word")
    [ "${#COMPREPLY[@]}" -gt 0 ] || mapfile -t COMPREPLY < <(compgen -f -- "$word")
}
complete -F _airdisk airdisk
