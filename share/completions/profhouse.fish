# Completion of profhouse for fish: copy this to ~/.config/fish/completions/. tests/words_of_help reads it.

# Whether the command is one of these.
function __profhouse_command
    set -l words (commandline -opc)
    test (count $words) -gt 1; and contains -- $words[2] $argv
end

# Whether there is no command yet.
function __profhouse_no_command
    test (count (commandline -opc)) -eq 1
end

complete -c profhouse -f

complete -c profhouse -n __profhouse_no_command -a total -d 'Print the sum of each event of a Callgrind file'
complete -c profhouse -n __profhouse_no_command -a import -d 'Import profile files'
complete -c profhouse -n __profhouse_no_command -a runs -d 'List the runs'
complete -c profhouse -n __profhouse_no_command -a by -d 'Report self costs by object, file, function, line or thread'
complete -c profhouse -n __profhouse_no_command -a inclusive -d 'Report what functions cost with all that they call'
complete -c profhouse -n __profhouse_no_command -a callers -d 'Report who calls a function'
complete -c profhouse -n __profhouse_no_command -a callees -d 'Report whom a function calls'
complete -c profhouse -n __profhouse_no_command -a subtract -d 'Report how self costs differ'
complete -c profhouse -n __profhouse_no_command -a verify -d 'Compare sums of costs with the totals that files state'
complete -c profhouse -n __profhouse_no_command -a annotate -d 'Show a source with the cost of each of its lines'
complete -c profhouse -n __profhouse_no_command -a csv -d 'Write self costs by object, file, function, line and event as CSV'
complete -c profhouse -n __profhouse_no_command -a folded -d 'Write the stacks of folded runs'
complete -c profhouse -n __profhouse_no_command -a group -d 'Make a group, or drop one'
complete -c profhouse -n __profhouse_no_command -a join -d 'Add a run to a group'
complete -c profhouse -n __profhouse_no_command -a leave -d 'Remove a run from a group'
complete -c profhouse -n __profhouse_no_command -a baseline -d 'Make a run the baseline of a group'
complete -c profhouse -n __profhouse_no_command -a groups -d 'List the groups'
complete -c profhouse -n __profhouse_no_command -a remove -d 'Remove runs'
complete -c profhouse -n __profhouse_no_command -a serve -d 'Answer requests over HTTP'
complete -c profhouse -n __profhouse_no_command -a help -d 'Print the help of the program or of a command'
complete -c profhouse -n __profhouse_no_command -s h -l help -d 'Print help'
complete -c profhouse -n __profhouse_no_command -s V -l version -d 'Print version'

complete -c profhouse -n '__profhouse_command total import runs by inclusive callers callees subtract verify annotate csv folded group join leave baseline groups remove serve' -s h -l help -d 'Print help'
complete -c profhouse -n '__profhouse_command import runs by inclusive callers callees subtract verify annotate csv folded group join leave baseline groups remove serve' -l db -r -F -d 'The store'
complete -c profhouse -n '__profhouse_command import' -l folded -d 'The files hold folded stacks'
complete -c profhouse -n '__profhouse_command group' -l drop -d 'Drop the group'
complete -c profhouse -n '__profhouse_command by inclusive callers callees subtract verify annotate csv folded' -l run -x -d 'Only this run'
complete -c profhouse -n '__profhouse_command by inclusive callers callees subtract verify annotate csv folded' -l group -x -d 'Only the runs of this group'
complete -c profhouse -n '__profhouse_command subtract' -l less-run -x -d 'Take off the costs of this run'
complete -c profhouse -n '__profhouse_command subtract' -l less-group -x -d 'Take off the costs of this group'
complete -c profhouse -n '__profhouse_command by inclusive callers callees subtract annotate' -l event -x -d 'The event, as Ir or samples'
complete -c profhouse -n '__profhouse_command callers callees' -l object -x -d 'The object of the function, as by object prints it'
complete -c profhouse -n '__profhouse_command annotate' -l file -x -d 'The file, as by file prints it'
complete -c profhouse -n '__profhouse_command by' -l limit -x -d 'Show at most this many rows, and the rest as one'
complete -c profhouse -n '__profhouse_command by' -l threshold -x -d 'Show rows until they make up this percentage of the total, and the rest as one'
complete -c profhouse -n '__profhouse_command serve' -l port -x -d 'The port of 127.0.0.1; 0 takes a free one'
complete -c profhouse -n '__profhouse_command serve' -l requests -x -d 'End after this many requests, 1 to 1000000'
complete -c profhouse -n '__profhouse_command serve' -l most-bytes -x -d 'Refuse an answer of more bytes as out of memory'
complete -c profhouse -n '__profhouse_command serve' -l log -d 'Write one line on standard error for each served request'

complete -c profhouse -n '__profhouse_command total import annotate' -F
complete -c profhouse -n '__profhouse_command by subtract' -a 'object file function line thread'
complete -c profhouse -n '__profhouse_command help' -a 'total import runs by inclusive callers callees subtract verify annotate csv folded group join leave baseline groups remove serve help'
