# Made by `scripts/check --write completions`; completions of pyver for fish: this file among fish's completions.
complete -c pyver -f
complete -c pyver -n '__fish_use_subcommand' -s h -l help -d 'print this help'
complete -c pyver -n '__fish_use_subcommand' -s V -l version -d 'print the version'

complete -c pyver -n __fish_use_subcommand -a compare -d 'compare two versions (exit status 0 or 1)'
complete -c pyver -n '__fish_seen_subcommand_from compare' -s h -l help -d 'print this help'
complete -c pyver -n '__fish_seen_subcommand_from compare; and test (count (commandline -opc)) -eq 3' -a 'lt le eq ne ge gt'

complete -c pyver -n __fish_use_subcommand -a match -d 'test versions against specifiers'
complete -c pyver -n '__fish_seen_subcommand_from match' -s h -l help -d 'print this help'
complete -c pyver -n '__fish_seen_subcommand_from match' -s q -l quiet -d 'print nothing'
complete -c pyver -n '__fish_seen_subcommand_from match' -l pre -d 'allow pre-releases and dev releases too'
complete -c pyver -n '__fish_seen_subcommand_from match' -l no-pre -d 'allow none of them'

complete -c pyver -n __fish_use_subcommand -a filter -d 'print the lines whose version the specifiers allow'
complete -c pyver -n '__fish_seen_subcommand_from filter' -s h -l help -d 'print this help'
complete -c pyver -n '__fish_seen_subcommand_from filter' -s v -l invert-match -d 'print the other lines, but no invalid ones'
complete -c pyver -n '__fish_seen_subcommand_from filter' -l pre -d 'allow pre-releases and dev releases too'
complete -c pyver -n '__fish_seen_subcommand_from filter' -l no-pre -d 'allow none of them'
complete -c pyver -n '__fish_seen_subcommand_from filter' -s k -l field -x -d 'the version is field N, counted from 1, and not the whole line'
complete -c pyver -n '__fish_seen_subcommand_from filter' -s d -l delimiter -x -d 'the byte between fields, an ASCII character; without -d a tab'
complete -c pyver -n '__fish_seen_subcommand_from filter' -l header -d 'the first line of a file is a header; print only the first one'
complete -c pyver -n '__fish_seen_subcommand_from filter' -l invalid -x -a 'error skip keep' -d 'what to do with invalid lines'
complete -c pyver -n '__fish_seen_subcommand_from filter' -F

complete -c pyver -n __fish_use_subcommand -a sort -d 'sort lines by version'
complete -c pyver -n '__fish_seen_subcommand_from sort' -s h -l help -d 'print this help'
complete -c pyver -n '__fish_seen_subcommand_from sort' -s r -l reverse -d 'the newest first'
complete -c pyver -n '__fish_seen_subcommand_from sort' -s u -l unique -d 'print only the first of lines with equal versions'
complete -c pyver -n '__fish_seen_subcommand_from sort' -s n -l last -x -d 'print only the last K lines, after the header'
complete -c pyver -n '__fish_seen_subcommand_from sort' -s k -l field -x -d 'the version is field N, counted from 1, and not the whole line'
complete -c pyver -n '__fish_seen_subcommand_from sort' -s d -l delimiter -x -d 'the byte between fields, an ASCII character; without -d a tab'
complete -c pyver -n '__fish_seen_subcommand_from sort' -l header -d 'the first line of a file is a header; print only the first one'
complete -c pyver -n '__fish_seen_subcommand_from sort' -l invalid -x -a 'error skip keep' -d 'what to do with invalid lines'
complete -c pyver -n '__fish_seen_subcommand_from sort' -F

complete -c pyver -n __fish_use_subcommand -a newest -d 'print the line with the newest version allowed'
complete -c pyver -n '__fish_seen_subcommand_from newest' -s h -l help -d 'print this help'
complete -c pyver -n '__fish_seen_subcommand_from newest' -l pre -d 'allow pre-releases and dev releases too'
complete -c pyver -n '__fish_seen_subcommand_from newest' -l no-pre -d 'allow none of them'
complete -c pyver -n '__fish_seen_subcommand_from newest' -s k -l field -x -d 'the version is field N, counted from 1, and not the whole line'
complete -c pyver -n '__fish_seen_subcommand_from newest' -s d -l delimiter -x -d 'the byte between fields, an ASCII character; without -d a tab'
complete -c pyver -n '__fish_seen_subcommand_from newest' -l header -d 'leave out the first line of each file'
complete -c pyver -n '__fish_seen_subcommand_from newest' -l invalid -x -a 'error skip keep' -d 'what to do with invalid lines'
complete -c pyver -n '__fish_seen_subcommand_from newest' -F

complete -c pyver -n __fish_use_subcommand -a show -d 'print versions in normal form, or their parts'
complete -c pyver -n '__fish_seen_subcommand_from show' -s h -l help -d 'print this help'
complete -c pyver -n '__fish_seen_subcommand_from show' -l part -x -a 'epoch release major minor micro pre post dev local public base' -d 'print only this part'
complete -c pyver -n '__fish_seen_subcommand_from show' -l json -d 'print all parts as a JSON object, numbers above 2^53 as strings'

complete -c pyver -n __fish_use_subcommand -a bump -d 'raise parts of a version'
complete -c pyver -n '__fish_seen_subcommand_from bump' -s h -l help -d 'print this help'
complete -c pyver -n '__fish_seen_subcommand_from bump' -l to -x -d 'set the number of the last part'
complete -c pyver -n '__fish_seen_subcommand_from bump' -a 'major minor patch stable alpha beta rc post dev'

complete -c pyver -n __fish_use_subcommand -a range -d 'print the range that all specifiers allow'
complete -c pyver -n '__fish_seen_subcommand_from range' -s h -l help -d 'print this help'
complete -c pyver -n '__fish_seen_subcommand_from range' -l json -d 'print an array of intervals; without a version it is []'

complete -c pyver -n __fish_use_subcommand -a marker -d 'print an environment in which the marker holds'
complete -c pyver -n '__fish_seen_subcommand_from marker' -s h -l help -d 'print this help'
complete -c pyver -n '__fish_seen_subcommand_from marker' -l any-system -d 'os_name, sys_platform and platform_system are independent, too'

complete -c pyver -n __fish_use_subcommand -a check -d 'check requirements files, projects and locks'
complete -c pyver -n '__fish_seen_subcommand_from check' -s h -l help -d 'print this help'
complete -c pyver -n '__fish_seen_subcommand_from check' -s q -l quiet -d 'print nothing; files that cannot be opened are named'
complete -c pyver -n '__fish_seen_subcommand_from check' -l each -d 'check each file by itself, with those that its lines name'
complete -c pyver -n '__fish_seen_subcommand_from check' -l no-lock -d 'seek no lock of a project'
complete -c pyver -n '__fish_seen_subcommand_from check' -l format -x -a 'requirements pyproject pylock uv poetry pdm' -d 'the kind of files that have none by name'
complete -c pyver -n '__fish_seen_subcommand_from check' -l output -x -a 'text json github sarif' -d 'the form in which what is wrong is printed; without it text'
complete -c pyver -n '__fish_seen_subcommand_from check' -l json -d '--output json: an array of objects'
complete -c pyver -n '__fish_seen_subcommand_from check' -F
