#!/bin/sh
# A program whose help has the same form as that of tpmsim, but with other subcommands and options.
case $* in
--version) echo 'tpmsim 0.1.0' ;;
lines) printf 'Stir @PCR Buffer\n    Stir 00000000 pw:- 00\nStop\n    Stop\n' ;;
--help)
    cat <<'END_OF_HELP'
A TPM 2.0 in software: does more than it does

Usage: tpmsim <COMMAND>

Commands:
  stir   Stirs a device that is kept in a folder
  lines  Prints how a command is said in words
  help   Print this message or the help of the given subcommand(s)

Options:
  -h, --help     Print help
  -V, --version  Print version
END_OF_HELP
    ;;
'stir --help')
    cat <<'END_OF_HELP'
Stirs a device that is kept in a folder

Usage: tpmsim stir [OPTIONS] <DIR>

Arguments:
  <DIR>  The folder of the device

Options:
      --log <FILE>     Where each stir is written
      --spoon <NUMBER>  How many stirs there are
      --twice           Stirs twice, as `stir` does
      --backwards
  -h, --help            Print help

Example: tpmsim stir --twice tpm
END_OF_HELP
    ;;
'lines --help')
    cat <<'END_OF_HELP'
Prints how a command is said in words

Usage: tpmsim lines [NAME]

Arguments:
  [NAME]  The command

Options:
  -h, --help  Print help

Example: tpmsim lines Stir
END_OF_HELP
    ;;
*) exit 2 ;;
esac
