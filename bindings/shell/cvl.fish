# Completion of cvl for fish.
complete -c cvl -l tile -x -a '1024 4096 16384 65536' -d 'The length of a tile, in elements, from 1 to 65536'
complete -c cvl -l workers -x -a '1 2 4 8 16 32 64' -d 'The number of workers, from 1 to 64'
complete -c cvl -l explain -d 'Explain on standard error why the script stopped'
complete -c cvl -s h -l help -d 'Print help'
complete -c cvl -s V -l version -d 'Print version'
