# Completion of tpmsim and its tools for fish. The words to complete come from the programs themselves: `--help` lists
# the subcommands and the options, and `tpmsim lines` the names of the TPM's commands.

function __tpmsim_help
    set -l words (commandline -opc)
    if test (count $words) -gt 1; and string match -qr '^[a-z]+$' -- $words[2]; and test $words[1] = tpmsim
        command tpmsim $words[2] --help 2>/dev/null
    else
        command $words[1] --help 2>/dev/null
    end
end

function __tpmsim_options
    __tpmsim_help | string match -ar -- '--[a-z][a-z0-9-]*' | sort -u
end

function __tpmsim_subcommands
    command tpmsim --help 2>/dev/null | sed -n '/^Commands:/,/^$/s/^  \([a-z][a-z-]*\) .*/\1/p'
end

function __tpmsim_names
    command tpmsim lines 2>/dev/null | sed -n 's/^\([A-Z][A-Za-z_]*\).*/\1/p'
end

complete -c tpmsim -n __fish_use_subcommand -f -a '(__tpmsim_subcommands)'
complete -c tpmsim -n '__fish_seen_subcommand_from lines line' -f -a '(__tpmsim_names)'
for tool in tpmsim tpmsim-audit tpmsim-compare tpmsim-coverage tpmsim-explain tpmsim-power tpmsim-refusals \
        tpmsim-script tpmsim-simulator tpmsim-sweep
    complete -c $tool -n 'string match -q -- "-*" (commandline -ct)' -a '(__tpmsim_options)'
end
