# Completions of ccsuite-subtitles for fish: its options, what they take, and files; rows, frames and encodings are left to the user.

complete -c ccsuite-subtitles -l on -x -a 'CC1 CC3 S1 S2 S3 S4 S5 S6' -d 'Where captions go'
complete -c ccsuite-subtitles -l rate -x -a '29.97 30 59.94 60' -d 'Frames a second'
complete -c ccsuite-subtitles -l row -x -d 'The last row of captions, 1 to 15'
complete -c ccsuite-subtitles -l late -x -d 'The most frames that a caption comes late'
complete -c ccsuite-subtitles -l encoding -x -d 'The encoding of the file'
complete -c ccsuite-subtitles -l replace -d 'Show ? for letters that there are none like'
complete -c ccsuite-subtitles -l help -d 'Tell the options'
