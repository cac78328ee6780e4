# Completion of bash for bpf_host, bpf_object, explain, lower and merging: source it, or copy it under the
# name of each of these five to /usr/share/bash-completion/completions/.

# Completes the files that begin with the word, after what stands before it, as `@`.
_bpf_host_files() {
    local before=$1 word=$2
    mapfile -t COMPREPLY < <(compgen -P "$before" -f -- "$word")
    compopt -o filenames 2>/dev/null
}

_bpf_host() {
    local word=${COMP_WORDS[COMP_CWORD]}
    if [ "$COMP_CWORD" -eq 1 ]; then
        mapfile -t COMPREPLY < <(compgen -W 'replay serve check help --help' -- "$word")
        return
    fi
    case ${COMP_WORDS[1]} in
        replay | serve) [ "$COMP_CWORD" -eq 2 ] && _bpf_host_files '' "$word" ;;
        check) mapfile -t COMPREPLY < <(compgen -W '--context --help' -- "$word") ;;
        help) mapfile -t COMPREPLY < <(compgen -W 'replay serve check' -- "$word") ;;
    esac
}

# The words of a program that takes a text: explain, lower.
_bpf_text() {
    local word=${COMP_WORDS[COMP_CWORD]}
    case $word in
        @*) _bpf_host_files '@' "${word#@}" ;;
        *) mapfile -t COMPREPLY < <(compgen -W "--context --help --version $1" -- "$word") ;;
    esac
}

_bpf_explain() {
    _bpf_text '--section --all --lower --html'
}

_bpf_lower() {
    _bpf_text '--stats'
}

_bpf_merging() {
    local word=${COMP_WORDS[COMP_CWORD]}
    case $word in
        -*) mapfile -t COMPREPLY < <(compgen -W '--svg --help --version' -- "$word") ;;
        *) _bpf_host_files '' "$word" ;;
    esac
}

_bpf_object() {
    local word=${COMP_WORDS[COMP_CWORD]}
    case $word in
        -*) mapfile -t COMPREPLY < <(compgen -W '--section --tenant --context --as-is --hex --maps --run --help' -- "$word") ;;
        *) _bpf_host_files '' "$word" ;;
    esac
}

complete -F _bpf_host bpf_host
complete -F _bpf_object bpf_object
complete -F _bpf_explain explain
complete -F _bpf_lower lower
complete -F _bpf_merging merging
