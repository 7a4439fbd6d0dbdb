printf kept >target
ln -s target melt.stale
