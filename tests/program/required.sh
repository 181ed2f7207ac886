# Plays the first part of required.txt, which shows what was asked for of the program. public_calls.sh compares the
# second part. Then plays a small table in which each kind of column is wrong: required.py must report each.
tests=$(cd "$(dirname "$0")/.." && pwd -P)
. "$tests/common/cases.sh"
needs cc python3

# play TABLE: plays the cases of a table.
play() {
    python3 "$tests/common/required.py" "$program" "$1"
    echo "status $?"
}

echo '== required.txt'
play "$tests/program/required.txt"

cat >turned.txt <<'END'
ok := 80010000000a00000000
== The columns of a run
| words | files | status | output | error |
What is right is not reported.
| run - | -='cmd 80010000000c000001440000\n' | 0 | $ok | |
| then run f | f='cmd\n'*2 | 0 | 80010000000a00000142 / 80010000000a00000142 | |

What is wrong is reported.
| run - | -='cmd\n' | 0 | | |
| run - | -='cmd\n' | 0 | $ok | |
| run - | -='cmd\n' | 2 | 80010000000a00000142 | |
| run - | -='bad\n' | 2 | | tpmsim: script line 2 |
| run - | -='bad\n' | 2 | | |
| run - | -='\n' | 0 | | tpmsim: usage |
| then run - | no memory ; -='\n' | 0 | | |
| run - | -='\n' ; >=/dev/full | 3 | | tpmsim: file |
| run f | f/ | 0 | |

== The columns of a service
| words | files | connections | status | responses | error |
What is wrong with a client is reported.
| serve --socket s --image f --entropy e --locality 0 --connections 1 | e='\0'*512 | 80010000000c000001440000 | 0 | none | |
| serve --socket s --image f --entropy e --locality 0 --connections 2 | e='\0'*512 | nothing ; unread 80010000000c000001440000 | 0 | $ok ; $ok | |
| then serve --socket s --image f --entropy e --locality 0 --connections 1 | e='\0'*512 | @5 80010000000c000001440000 80010000000a00000181 | 0 | $ok | |
| serve --socket s --image f --entropy e --locality 0 --connections 1 | e='\0'*256 | 80010000000c000001440000 | 0 | none | |
| serve --socket s --image f --entropy e --locality 5 --connections 1 | e='\0'*256 | 80010000000c000001440000 | 2 | $ok | tpmsim: usage |
| asm 'Startup 0' | | | 0 | | |
END
echo '== a table whose cases are wrong'
play turned.txt
