# fish completion for lanyardrove

set -l lists check repair dump draw report diff edit lint
set -l warnings fill-texture depth-image combine-mode texture-memory sync-full data-run swapped all
set -l named no-$warnings $warnings
set -l commands $lists translate asm

complete -c lanyardrove -n "not __fish_seen_subcommand_from $commands help" -f
complete -c lanyardrove -n "not __fish_seen_subcommand_from $commands help" -a "$commands help"
complete -c lanyardrove -n "not __fish_seen_subcommand_from $commands help" -s h -l help
complete -c lanyardrove -n "not __fish_seen_subcommand_from $commands help" -s V -l version
complete -c lanyardrove -n "__fish_seen_subcommand_from help" -f -a "$commands"

complete -c lanyardrove -n "__fish_seen_subcommand_from check" -s q -l quiet -d "number and place alone"
complete -c lanyardrove -n "__fish_seen_subcommand_from diff" -s q -l quiet -d "the count alone"
complete -c lanyardrove -n "__fish_seen_subcommand_from diff" -l format -x -a "text json"
complete -c lanyardrove -n "__fish_seen_subcommand_from check" -s v -l verbose -d "the cycles waited too"
complete -c lanyardrove -n "__fish_seen_subcommand_from check" -l failures -d "leave out accepted lists"
complete -c lanyardrove -n "__fish_seen_subcommand_from check" -l all -d "every missing sync"
complete -c lanyardrove -n "__fish_seen_subcommand_from check lint" -l format -x -a "text gcc github json sarif"

complete -c lanyardrove -n "__fish_seen_subcommand_from lint" -s W -l warn -x -a "$named" -d "leave a warning out"

complete -c lanyardrove -n "__fish_seen_subcommand_from repair" -l afresh -d "choose all syncs afresh"
complete -c lanyardrove -n "__fish_seen_subcommand_from repair" -l check -d "write nothing"
complete -c lanyardrove -n "__fish_seen_subcommand_from repair edit" -s i -l in-place -d "write each list over itself"

complete -c lanyardrove -n "__fish_seen_subcommand_from dump" -l brief -d "leave out fields that are 0"
complete -c lanyardrove -n "__fish_seen_subcommand_from dump" -l asm -d "the text that asm reads"
complete -c lanyardrove -n "__fish_seen_subcommand_from dump" -l from -x
complete -c lanyardrove -n "__fish_seen_subcommand_from dump" -l to -x
complete -c lanyardrove -n "__fish_seen_subcommand_from dump" -l around -x

complete -c lanyardrove -n "__fish_seen_subcommand_from draw report" -l memory -r -F -a "64K 1M 4M 8M"
complete -c lanyardrove -n "__fish_seen_subcommand_from draw report translate" -l start -x
complete -c lanyardrove -n "__fish_seen_subcommand_from draw report" -l texture -r -F
complete -c lanyardrove -n "__fish_seen_subcommand_from draw" -l image -x
complete -c lanyardrove -n "__fish_seen_subcommand_from report" -l steps -d "a page of the steps"

complete -c lanyardrove -n "__fish_seen_subcommand_from repair draw report diff translate edit asm" -s o -l output -r -F

complete -c lanyardrove -n "__fish_seen_subcommand_from check dump draw report lint" -l f3dex2 -x
complete -c lanyardrove -n "__fish_seen_subcommand_from $lists" -l offset -x
complete -c lanyardrove -n "__fish_seen_subcommand_from $lists" -l length -x
complete -c lanyardrove -n "__fish_seen_subcommand_from $lists" -l swap -d "little-endian words"
complete -c lanyardrove -n "__fish_seen_subcommand_from $lists" -l hex -d "hexadecimal text"
complete -c lanyardrove -n "__fish_seen_subcommand_from $commands" -s h -l help
