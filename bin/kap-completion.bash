# Completion of kap for bash: commands, options, folders of stores, and files of scripts.
_kap() {
    local word=${COMP_WORDS[COMP_CWORD]} last=${COMP_WORDS[COMP_CWORD - 1]} asked=-d words=''
    case ${COMP_WORDS[1]}:$COMP_CWORD:$last:$word in
        *:1:*)
            words='check print replay ints init define enable disable delete write show tasks topics alerts export
                compact --help'
            ;;
        *:--from:*) asked=-f ;;
        *:--precision:*) words='ns u ms s m h' ;;
        replay:*:-*) words='--from --lines --summary' ;;
        ints:*) words='--lines --scale --drop' ;;
        write:*:-*) words='--precision' ;;
        define:2:* | init:* | enable:* | disable:* | delete:* | write:* | show:* | tasks:* | topics:*) ;;
        check:* | print:* | replay:* | define:*) asked=script ;;
    esac
    if [ -n "$words" ]; then
        mapfile -t COMPREPLY < <(compgen -W "$words" -- "$word")
    elif [ "$asked" = script ]; then
        mapfile -t COMPREPLY < <(compgen -f -X '!*.tick' -- "$word"; compgen -d -- "$word")
    else
        mapfile -t COMPREPLY < <(compgen "$asked" -- "$word")
    fi
}
complete -o filenames -F _kap kap
