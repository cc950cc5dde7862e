# Completion of capkit for bash.
_capkit_offer() { mapfile -t COMPREPLY < <(compgen -W "$1" -- "$2"); }
_capkit_files() {
    compopt -o filenames
    mapfile -t COMPREPLY < <(compgen -f -- "$1")
}
_capkit() {
    local word=$2 before=$3 options='' has_files=''
    COMPREPLY=()
    # bash takes an option and its value apart at =
    case $word$before in
    =*) word='' ;;
    *=) before=${COMP_WORDS[COMP_CWORD-2]} ;;
    esac
    if [ "$COMP_CWORD" = 1 ]; then
        _capkit_offer '{{ names }} {{ program.flags }} ' "$word"
        return
    fi
    case ${COMP_WORDS[1]} in
    help) [ "$COMP_CWORD" != 2 ] || _capkit_offer '{{ names }} ' "$word" ;;
@for command in commands
    {{ command.name }})
        case $before in
@for option in command.options if option.value
@for name in option.names
@if option.is_file
        {{ name }}) _capkit_files "$word"; return ;;
@else
        {{ name }}) _capkit_offer '{{ option.choices | join(" ") }}' "$word"; return ;;
@endif
@endfor
@endfor
        esac
        options='{{ command.flags }} '
@if command.has_files
        has_files=yes
@endif
        ;;
@endfor
    esac
    case $word in
    -*) _capkit_offer "$options" "$word" ;;
    *) [ -z "$has_files" ] || _capkit_files "$word" ;;
    esac
}
complete -F _capkit capkit
