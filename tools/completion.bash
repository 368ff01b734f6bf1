# bash completion of zre: its commands, and the words of each.

_zre() {
    local cur=${COMP_WORDS[COMP_CWORD]} line=${COMP_LINE:0:COMP_POINT} commands keys
    local node='id= host= port= name= header= evasive= expired='
    local chat="$node to= listen= beacon= interval= capture="
    commands='chat gate replay upgrade table audit simulate follow show exercise help'
    COMPREPLY=()
    if [ "$COMP_CWORD" -le 1 ]; then
        mapfile -t COMPREPLY < <(compgen -W "$commands" -- "$cur")
        return
    fi
    # readline parts words at `=`: the word with its key is what stands after the last blank
    local word=${line##* }
    case $word in
    capture=*)
        mapfile -t COMPREPLY < <(compgen -f -- "${word#capture=}")
        return
        ;;
    *=*) return ;;
    esac
    case ${COMP_WORDS[1]} in
    chat) keys=$chat ;;
    gate) keys="$chat clients= local=" ;;
    replay | upgrade) keys=$node ;;
    follow) keys='id=' ;;
    table) keys='group=' ;;
    exercise) keys='seed= peers= messages=' ;;
    *) keys='' ;;
    esac
    mapfile -t COMPREPLY < <(compgen -W "$keys" -- "$cur")
    compopt -o nospace 2>/dev/null
}

complete -F _zre zre
