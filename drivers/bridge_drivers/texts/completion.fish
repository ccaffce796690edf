# fish completion of nl-bridge and its drivers; made by `nl-bridge completion fish`

for command in %(all)s
    complete -c $command -e
end
complete -c nl-bridge -n __fish_use_subcommand -f
%(commands)s
%(behind)s
%(options)s
