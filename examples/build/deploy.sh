# deploy.sh PLACE PROGRAMS: copies the programs, one a line, to the place.
set -e
mkdir -p "out/$1"
echo "$2" | while read -r program; do cp "$program" "out/$1"; done
