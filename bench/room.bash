# The top of the repository, and a folder for what a script prints, which goes when the script ends. The scripts beside this file source it.
top=$(cd "$(dirname "${BASH_SOURCE[0]}")/.." && pwd)
work=$(mktemp -d)
trap 'rm -rf "$work"' EXIT
