# Made by `scripts/check --write completions`; completions of pyver for bash: `. pyver.bash`, or the file as `pyver` among bash-completion's.
_pyver() {
    local word=$2 before=$3 prefix= words=
    # bash takes `--part=x` for three words, or for one if COMP_WORDBREAKS has no equals sign
    [[ $before != '=' ]] || before=${COMP_WORDS[COMP_CWORD - 2]}
    [[ $word != --*=* ]] || { before=${word%%=*} prefix=${word%%=*}= word=${word#*=}; }
    case $COMP_CWORD,${COMP_WORDS[1]},$before in
        1,*) words='compare match filter sort newest show bump range marker check -h --help -V --version' ;;
        3,compare,*) words='lt le eq ne ge gt' ;;
        *,compare,*) words='-h --help' ;;
        *,match,*) words='-h --help -q --quiet --pre --no-pre' ;;
        *,filter,--field | *,filter,-k) words='' ;;
        *,filter,--delimiter | *,filter,-d) words='' ;;
        *,filter,--invalid) words='error skip keep' ;;
        *,filter,*) words='-h --help -v --invert-match --pre --no-pre -k --field -d --delimiter --header --invalid' ;;
        *,sort,--last | *,sort,-n) words='' ;;
        *,sort,--field | *,sort,-k) words='' ;;
        *,sort,--delimiter | *,sort,-d) words='' ;;
        *,sort,--invalid) words='error skip keep' ;;
        *,sort,*) words='-h --help -r --reverse -u --unique -n --last -k --field -d --delimiter --header --invalid' ;;
        *,newest,--field | *,newest,-k) words='' ;;
        *,newest,--delimiter | *,newest,-d) words='' ;;
        *,newest,--invalid) words='error skip keep' ;;
        *,newest,*) words='-h --help --pre --no-pre -k --field -d --delimiter --header --invalid' ;;
        *,show,--part) words='epoch release major minor micro pre post dev local public base' ;;
        *,show,*) words='-h --help --part --json' ;;
        *,bump,--to) words='' ;;
        *,bump,*) words='-h --help --to major minor patch stable alpha beta rc post dev' ;;
        *,range,*) words='-h --help --json' ;;
        *,marker,*) words='-h --help --any-system' ;;
        *,check,--format) words='requirements pyproject pylock uv poetry pdm' ;;
        *,check,--output) words='text json github sarif' ;;
        *,check,*) words='-h --help -q --quiet --each --no-lock --format --output --json' ;;
    esac
    [[ ! ${COMP_WORDS[1]} =~ ^(filter|sort|newest|check)$ ]] || compopt -o default 2> /dev/null
    COMPREPLY=()
    while IFS= read -r word; do
        COMPREPLY+=("$word")
    done < <(compgen -P "$prefix" -W "$words" -- "$word")
}
complete -F _pyver pyver
