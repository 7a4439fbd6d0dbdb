printf kept >target
ln target melt.stale
