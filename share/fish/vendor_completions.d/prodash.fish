# Completes the words of prodash, prodash-live and prodash-replay in fish, from their help.

# Adds the options that these lines of a help list, to a program in some condition.
function __prodash_add --argument-names program condition
    for line in $argv[3..]
        string match -qr '^ +(-\w, )?--(?<option>[a-z-]+)( <(?<value>\w+)>)? +(?<text>.*)' -- $line
        or continue
        set -l added -c $program -n $condition -l $option -d $text
        switch "$value"
            case FILE
                complete $added -rF
            case WHEN
                complete $added -xa "auto always never"
            case "?*"
                complete $added -x
            case "*"
                complete $added
        end
    end
end

# Prints the commands, each with what it does.
function __prodash_commands
    prodash help | string replace -rf '^  ([a-z]+) {2,}(.*)' '$1\t$2'
end

# Prints the index of the first word of the job among words that begin with `prodash run`. It is
# behind the options, their values, and a `--`.
function __prodash_job_at
    set -l with_value (prodash live --help | string match -rg '^ +(--[a-z-]+) <')
    set -l at 3
    while string match -q -- '-*' $argv[$at]
        if test "$argv[$at]" = --
            math $at + 1
            return
        end
        contains -- $argv[$at] $with_value
        and set at (math $at + 1)
        set at (math $at + 1)
    end
    echo $at
end

# Succeeds behind `prodash run` and options.
function __prodash_is_before_job
    set -l words (commandline -opc)
    test "$words[2]" = run
    and test "$words[-1]" != --
    and test (__prodash_job_at $words) -gt (count $words)
end

# Succeeds in the job of `prodash run`, or where it may begin.
function __prodash_is_job
    set -l words (commandline -opc)
    test "$words[2]" = run
    and test (__prodash_job_at $words) -le (math (count $words) + 1)
end

# Completes the job of `prodash run`.
function __prodash_job
    set -l words (commandline -opc)
    set -l at (__prodash_job_at $words)
    set -a words (commandline -ct)
    complete --do-complete="$words[$at..]"
end

complete -c prodash -n __fish_use_subcommand -xa "(__prodash_commands)"
complete -c prodash -n __fish_use_subcommand -l lib -xa "python sh" -d "prints where a library is"
complete -c prodash -n __fish_use_subcommand -l version -d "prints the version"
complete -c prodash -n __prodash_is_job -xa "(__prodash_job)"
# all options but those of a dashboard
__prodash_add prodash __prodash_is_before_job (prodash run --help) \
    (prodash live --help | string match -v '*dashboard*')
for name in (prodash help | string match -rg '^  ([a-z]+) {2,}')
    contains $name run help
    or __prodash_add prodash "__fish_seen_subcommand_from $name" (prodash $name --help)
end
complete -c prodash -n "__fish_seen_subcommand_from live" -f
complete -c prodash -n "__fish_seen_subcommand_from replay" -a "bytes dashboard page"
__prodash_add prodash-live true (prodash-live --help)
complete -c prodash-live -f
__prodash_add prodash-replay true (prodash-replay --help)
complete -c prodash-replay -xa "bytes dashboard page"
