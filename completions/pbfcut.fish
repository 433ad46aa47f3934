# Completion for pbfcut and pbfcutz in fish; installed under both names, it completes the one that it is called by.
set -l program (string replace -r '^.*/([^/]*)\.fish$' '$1' (status filename))
set -l commands extract convert check show blobs help
if test $program = pbfcutz
    set commands extract convert pack unpack check show info blobs help
    complete -c $program -n "not __fish_seen_subcommand_from $commands" -f -a pack -d "compress the blobs of a file"
    complete -c $program -n "not __fish_seen_subcommand_from $commands" -f -a unpack -d "decompress the blobs of a file"
    complete -c $program -n "not __fish_seen_subcommand_from $commands" -f -a info -d "print the header of a file"
    complete -c $program -n "__fish_seen_subcommand_from info" -l json -d "print a JSON object"
    complete -c $program -n "__fish_seen_subcommand_from extract" -s c -l config -r -d "cut out the areas of a JSON file"
    complete -c $program -n "__fish_seen_subcommand_from extract" -s d -l directory -x -a "(__fish_complete_directories)" -d "the folder of the files that --config names"
    complete -c $program -n "__fish_seen_subcommand_from extract convert" -l raw -d "write raw blobs"
    complete -c $program -n "__fish_seen_subcommand_from extract convert pack unpack" -s o -l output -r -d "the file to write"
    complete -c $program -n "__fish_seen_subcommand_from extract convert pack unpack" -s O -l overwrite -d "replace OUT if it exists"
    complete -c $program -n "__fish_seen_subcommand_from pack unpack" -l progress -d "report progress on standard error"
    complete -c $program -n "__fish_seen_subcommand_from pack unpack" -l digests -d "print SHA-256 digests"
end
complete -c $program -n "not __fish_seen_subcommand_from $commands" -f -a extract -d "cut a box or a polygon out of a file"
complete -c $program -n "not __fish_seen_subcommand_from $commands" -f -a convert -d "write a file in one fixed form"
complete -c $program -n "not __fish_seen_subcommand_from $commands" -f -a check -d "validate a file and count its entities"
complete -c $program -n "not __fish_seen_subcommand_from $commands" -f -a show -d "print a file as text"
complete -c $program -n "not __fish_seen_subcommand_from $commands" -f -a blobs -d "list the frames of a file"
complete -c $program -n "not __fish_seen_subcommand_from $commands" -f -a help -d "print the help of a command"
complete -c $program -n "__fish_seen_subcommand_from help" -f -a "$commands"
complete -c $program -n "not __fish_seen_subcommand_from $commands" -l version -d "print the version"
complete -c $program -l help -d "print help"
complete -c $program -n "__fish_seen_subcommand_from extract" -s b -l box -x -d "west,south,east,north, in degrees"
complete -c $program -n "__fish_seen_subcommand_from extract" -s p -l polygon -r -d "cut out the polygon of a .poly or GeoJSON file"
complete -c $program -n "__fish_seen_subcommand_from extract" -l parents -d "keep relations that contain kept relations, too"
complete -c $program -n "__fish_seen_subcommand_from extract" -s s -l strategy -x -a "complete_ways smart" -d "what is kept"
complete -c $program -n "__fish_seen_subcommand_from extract" -l types -x -a "multipolygon multipolygon,boundary any" -d "types that smart keeps whole"
complete -c $program -n "__fish_seen_subcommand_from show" -l dates -d "print times from 1970 to 2099 as dates"
complete -c $program -n "__fish_seen_subcommand_from extract convert check show" -l progress -d "report progress on standard error"
complete -c $program -n "__fish_seen_subcommand_from extract convert check" -l digests -d "print SHA-256 digests"
