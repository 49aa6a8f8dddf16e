# Time against n for trees of labels: gnuplot -e "csv='FILE'; png='FILE'" bench/trees.gp
set terminal pngcairo size 1100,1000 font "DejaVu Sans,14"
set output png
set datafile separator ','

set logscale xy
set xrange [800:1310720]
set xtics ("1,000" 1000, "4,096" 4096, "16,384" 16384, "65,536" 65536, "262,144" 262144, "1,048,576" 1048576)
set ytics ("100 ns" 1e-7, "1 µs" 1e-6, "10 µs" 1e-5, "100 µs" 1e-4, "1 ms" 1e-3, "10 ms" 1e-2, "100 ms" 1e-1)
set yrange [5e-8:5e-2]
set grid linecolor "#dddddd" linetype 1
set xlabel "items in a table"
set title "Trees of labels: proved library and plain C" font ",18"
set key outside bottom center maxrows 4 Left reverse samplen 4 spacing 1.5

array names[3] = ["build", "append", "label of a run"]
array columns[3] = ["build", "append", "run"]
array colours[3] = ["#0072b2", "#009e73", "#d55e00"]
plot for [i = 1:3] csv using "n":columns[i] with linespoints linewidth 2 linecolor rgb colours[i] pointtype 7 pointsize 1.2 \
    title names[i] . ", proved", \
    csv using "n":"plain_sum" with linespoints linewidth 2 linecolor rgb "#000000" dashtype 2 pointtype 6 pointsize 1.2 \
    title "a run summed item by item, plain C", \
    for [i = 1:3] csv using "n":"plain_" . columns[i] with linespoints linewidth 2 linecolor rgb colours[i] dashtype 2 pointtype 6 \
    pointsize 1.2 title names[i] . ", plain C"
