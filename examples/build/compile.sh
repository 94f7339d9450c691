# compile.sh "BRANCH COMMIT": compiles the branch, and prints the path of its program.
set -e
export PATH  # cc finds its parts by it
branch=${1%% *} commit=${1##* }
mkdir -p out
cc -o "out/$branch-$commit" "$branch/greet.c"
echo "out/$branch-$commit"
