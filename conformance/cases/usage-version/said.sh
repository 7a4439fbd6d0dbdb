# The first version of the list of changes, the commit, and what is known of the program.
cd -- "$(dirname -- "$0")/../../.." || exit
sed -n 's/^## \([0-9]*\.[0-9.]*\).*/melt \1/p' docs/CHANGELOG.md | head -n 1
if [[ -e .git ]] && commit=$(git rev-parse --short=8 HEAD 2>/dev/null); then
    echo "commit $commit$([[ -z $(git diff HEAD --name-only) ]] || echo ', with changes')"
fi
if [[ ${MELT_PROGRAM-} ]]; then
    echo "runs $MELT_PROGRAM, of which nothing is known here"
else
    ./melt --version | tail -n 1
fi
