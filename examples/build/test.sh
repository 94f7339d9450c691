# test.sh PROGRAM: runs the program, and prints `pass` if it greets.
set -e
"./$1" | grep -q '^hello'
echo pass
