# Completions of ccsuite for fish: the commands, and files for their cue lists; numbers and times are left to the user.

complete -c ccsuite -f
complete -c ccsuite -n __fish_use_subcommand -a build -d 'The ancillary words of each frame of a cue list'
complete -c ccsuite -n __fish_use_subcommand -a pairs -d 'The byte pairs of each frame of a cue list'
complete -c ccsuite -n __fish_use_subcommand -a cues -d 'A cue list as it is written'
complete -c ccsuite -n __fish_use_subcommand -a fit -d 'A cue list whose cues are shown as few frames late as they need'
complete -c ccsuite -n __fish_use_subcommand -a dual -d 'The words of two cue lists, the second on CC2 and CC4'
complete -c ccsuite -n __fish_use_subcommand -a xds -d 'The words of a cue list with packets of extended data'
complete -c ccsuite -n __fish_use_subcommand -a decode -d 'The changed screens of each frame of a words file'
complete -c ccsuite -n __fish_use_subcommand -a show -d 'All screens at a frame of a words file'
complete -c ccsuite -n __fish_use_subcommand -a conceal -d 'The changed screens of words from which frames are missing'
complete -c ccsuite -n __fish_use_subcommand -a xds-show -d 'The packets of extended data of a words file'
complete -c ccsuite -n __fish_use_subcommand -a verify -d 'Whether words show what a cue list says'
complete -c ccsuite -n __fish_use_subcommand -a insert -d 'Words with the captions of a cue list'
complete -c ccsuite -n __fish_use_subcommand -a import -d 'The words of an SCC file'
complete -c ccsuite -n __fish_use_subcommand -a export -d 'The SCC file of words'
complete -c ccsuite -n __fish_use_subcommand -a import-mcc -d 'The words of an MCC file'
complete -c ccsuite -n __fish_use_subcommand -a export-mcc -d 'The MCC file of words'
complete -c ccsuite -n __fish_use_subcommand -a convert -d 'Words at 29.97 as words at 59.94 frames a second'
complete -c ccsuite -n __fish_use_subcommand -a load -d 'A list of many captions, carried and received'
complete -c ccsuite -n __fish_use_subcommand -a help -d 'A page on all commands, or on one'
complete -c ccsuite -n __fish_use_subcommand -a version -d 'The version'
complete -c ccsuite -n '__fish_seen_subcommand_from export-mcc; and test (count (commandline -opc)) -eq 2' -a '24 25 30 30DF 50 60 60DF'
complete -c ccsuite -n '__fish_seen_subcommand_from verify insert dual xds; and test (count (commandline -opc)) -eq 2' -F
complete -c ccsuite -n '__fish_seen_subcommand_from fit; and test (count (commandline -opc)) -eq 3' -F
complete -c ccsuite -n '__fish_seen_subcommand_from help; and test (count (commandline -opc)) -eq 2' -a 'build pairs cues fit dual xds decode show conceal xds-show verify insert import export import-mcc export-mcc convert load help version'
