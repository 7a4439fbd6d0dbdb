# Draws docs/pictures/every.svg from the rows of tools/heaps, as docs/WORKING.md says.
set terminal svg size 860,400 font 'sans-serif,12' background 'white'
set output 'docs/pictures/every.svg'
set datafile separator ','
set xlabel 'words of the heap' offset 0,0.5
set ylabel 'came back from the disk'
set logscale x 2
set logscale y
set format '%.10g'
set key outside below
set grid lc rgb '#cccccc'
plot 'every-1048576.csv' using 1:4 skip 1 with linespoints lw 2 pt 7 ps 0.5 lc rgb '#0072b2' title 'without --every', \
     'every-2000.csv' using 1:4 skip 1 with linespoints lw 2 pt 7 ps 0.5 lc rgb '#d55e00' title '--every 2000', \
     'every-250.csv' using 1:4 skip 1 with linespoints lw 2 pt 7 ps 0.5 lc rgb '#009e73' title '--every 250', \
     973 with lines lw 2 dt (2,4) lc rgb '#666666' title 'one use in a hundred'
