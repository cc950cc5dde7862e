@macro how(option)
{% for name in option.names %} {{ "-l" if name.startswith("--") else "-s" }} {{ name.lstrip("-") }}{% endfor %}
{%- if option.is_file %} -r -F{% elif option.value %} -x -a '{{ option.choices | join(" ") }}'{% endif %}
{%- endmacro %}
# Completion of capkit for fish.
complete -c capkit -f
@for option in program.options
complete -c capkit -n __fish_use_subcommand{{ how(option) }} -d '{{ option.text | fish }}'
@endfor
@for place in ["__fish_use_subcommand", "'__fish_seen_subcommand_from help; and not __fish_seen_subcommand_from " ~ names ~ "'"]
@for command in program.commands
complete -c capkit -n {{ place }} -a {{ command.form }} -d '{{ command.text | fish }}'
@endfor
@endfor
@for command in commands
@set place = "'__fish_seen_subcommand_from " ~ command.name ~ "; and not __fish_seen_subcommand_from help'"
@for option in command.options
complete -c capkit -n {{ place }}{{ how(option) }} -d '{{ option.text | fish }}'
@endfor
@if command.has_files
complete -c capkit -n {{ place }} -F
@endif
@endfor
