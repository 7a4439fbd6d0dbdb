# The same as after --help.
bash "$(dirname -- "$0")/../usage-help/said.sh"
