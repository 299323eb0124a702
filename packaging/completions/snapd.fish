# Completes the words of snapd in fish.
function __snapd_none
    test (count (commandline -opc)) -lt 2
end
function __snapd_is
    set -l words (commandline -opc)
    test (count $words) -ge 2; and test $words[2] = $argv[1]
end
complete -c snapd -f
complete -c snapd -n 'not __snapd_is help' -l help -d 'Print help'
complete -c snapd -n 'not __snapd_is help' -l version -d 'Print version'
complete -c snapd -n __snapd_none -a format -d 'Make and format the file of one segment'
complete -c snapd -n __snapd_none -a put -d 'Store standard input as the segment\'s next value'
complete -c snapd -n __snapd_none -a get -d 'Print the segment\'s value, and nothing else'
complete -c snapd -n __snapd_none -a check -d 'Show what a file holds, slot by slot, and change nothing'
complete -c snapd -n __snapd_none -a migrate -d 'Carry a file of the old format over to a new file, and leave the old one as it is'
complete -c snapd -n __snapd_none -a init -d 'Make a folder with the file of each segment, and go on where that was cut off'
complete -c snapd -n __snapd_none -a doctor -d 'Say how the files of a folder and its disk are, and what helps'
complete -c snapd -n __snapd_none -a serve -d 'Serve segments to clients, safe from crashes'
complete -c snapd -n __snapd_none -a call -d 'Ask a server, and print its reply'
complete -c snapd -n __snapd_none -a watch -d 'Show what a server holds, and each change of it'
complete -c snapd -n __snapd_none -a dump -d 'Print all that a server or a folder of files holds, as one document'
complete -c snapd -n __snapd_none -a load -d 'Make a folder with the file of each segment of a dump'
complete -c snapd -n __snapd_none -a script -d 'Run a script of writers and scanners, and print what each step answers'
complete -c snapd -n __snapd_none -a help -d 'Print the help of the program or of a command'
complete -c snapd -n '__snapd_is format' -F
complete -c snapd -n '__snapd_is format' -l index -d 'The segment\'s index, below N' -x
complete -c snapd -n '__snapd_is format' -l count -d 'How many segments there are, 1 to 16' -x
complete -c snapd -n '__snapd_is put' -F
complete -c snapd -n '__snapd_is put' -l index -d 'The segment\'s index, below N' -x
complete -c snapd -n '__snapd_is put' -l count -d 'How many segments there are, 1 to 16' -x
complete -c snapd -n '__snapd_is get' -F
complete -c snapd -n '__snapd_is get' -l index -d 'The segment\'s index, below N' -x
complete -c snapd -n '__snapd_is get' -l count -d 'How many segments there are, 1 to 16' -x
complete -c snapd -n '__snapd_is check' -F
complete -c snapd -n '__snapd_is check' -l json -d 'Print it as JSON, on one line'
complete -c snapd -n '__snapd_is check' -l slot -d 'The slot whose value is printed, 0 to 2' -x
complete -c snapd -n '__snapd_is check' -l value -d 'Print the value in slot S, and nothing else'
complete -c snapd -n '__snapd_is migrate' -F
complete -c snapd -n '__snapd_is migrate' -F
complete -c snapd -n '__snapd_is migrate' -l index -d 'The segment\'s index, below N' -x
complete -c snapd -n '__snapd_is migrate' -l count -d 'How many segments there are, 1 to 16' -x
complete -c snapd -n '__snapd_is init' -x -a '(__fish_complete_directories)'
complete -c snapd -n '__snapd_is init' -l count -d 'How many segments there are to be, 1 to 16' -x
complete -c snapd -n '__snapd_is init' -l missing-empty -d 'Make a missing file, empty, where another one holds a value'
complete -c snapd -n '__snapd_is doctor' -x -a '(__fish_complete_directories)'
complete -c snapd -n '__snapd_is doctor' -l measure -d 'Store values in a file of its own there, and say how long that takes'
complete -c snapd -n '__snapd_is serve' -F
complete -c snapd -n '__snapd_is serve' -l dir -d 'The folder of the files, in place of these' -x -a '(__fish_complete_directories)'
complete -c snapd -n '__snapd_is serve' -l listen -d 'One more address to listen at; again and again for further ones, 16 in all' -x
complete -c snapd -n '__snapd_is serve' -l socket-mode -d 'The mode of the file of a unix:PATH: users who may write it may connect' -x
complete -c snapd -n '__snapd_is serve' -l http -d 'Where to serve browsers and monitors, by HTTP: HOST:PORT; else nowhere' -x
complete -c snapd -n '__snapd_is serve' -l scanners -d 'How many requests are answered at the same moment, 1 to 16' -x
complete -c snapd -n '__snapd_is serve' -l connections -d 'End after this many connections' -x
complete -c snapd -n '__snapd_is serve' -l clients-max -d 'The most connections that are open at once, 1 to 1000000' -x
complete -c snapd -n '__snapd_is serve' -l idle -d 'Close a connection that was silent for this many seconds, 1 to 31536000' -x
complete -c snapd -n '__snapd_is serve' -l log -d 'The lowest level of a line on standard error: error, warn, info or debug' -x -a 'error warn info debug'
complete -c snapd -n '__snapd_is call' -x -a 'put get update scan part status health'
complete -c snapd -n '__snapd_is call' -l tries -d 'The most connections that are made, 1 to 10' -x
complete -c snapd -n '__snapd_is call' -l wait -d 'Try again for this many seconds if there is no answer, 1 to 86400' -x
complete -c snapd -n '__snapd_is call' -l timeout -d 'End if there is no answer for this many seconds, 1 to 86400' -x
complete -c snapd -n '__snapd_is call' -l value -d 'The value of a put, in place of standard input; --value=TEXT where it begins with -' -x
complete -c snapd -n '__snapd_is call' -l after -d 'Store number K + 1, without asking for the segment\'s number' -x
complete -c snapd -n '__snapd_is call' -l text -d 'Print each value as text, if it is printable'
complete -c snapd -n '__snapd_is call' -l json -d 'Print the answer as JSON, on one line'
complete -c snapd -n '__snapd_is watch' -l every -d 'Milliseconds between two polls, 1 to 86400000; else 1000' -x
complete -c snapd -n '__snapd_is watch' -l json -d 'Print each change as a JSON object, on one line'
complete -c snapd -n '__snapd_is dump' -x -a '(__fish_complete_directories)'
complete -c snapd -n '__snapd_is dump' -l tries -d 'The most connections that are made, 1 to 10' -x
complete -c snapd -n '__snapd_is dump' -l wait -d 'Try again for this many seconds if there is no answer, 1 to 86400' -x
complete -c snapd -n '__snapd_is dump' -l timeout -d 'End if there is no answer for this many seconds, 1 to 86400' -x
complete -c snapd -n '__snapd_is load' -x -a '(__fish_complete_directories)'
complete -c snapd -n '__snapd_is load' -F
complete -c snapd -n '__snapd_is load' -l count -d 'How many segments there are to be, 1 to 16, and at least as many as the dump has' -x
complete -c snapd -n '__snapd_is help' -x -a 'format put get check migrate init doctor serve call watch dump load script'
