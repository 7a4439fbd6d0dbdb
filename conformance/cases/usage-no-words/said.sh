# The page of all commands, on standard error.
echo 'melt: there is no command'
echo 'melt: '
bash "$(dirname -- "$0")/../usage-help/said.sh" | sed 's/^/melt: /'
