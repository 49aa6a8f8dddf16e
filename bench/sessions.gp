# Time against n for open, answers and takes: gnuplot -e "csv='FILE'; png='FILE'" bench/sessions.gp
set terminal pngcairo size 1800,1300 font "DejaVu Sans,14"
set output png
set datafile separator ','
# A row that is not one of the line leaves no gap in it.
set datafile missing NaN

array cases[7] = ["equal tables", "1 different", "100 different", "10 % different", "all different", "opener empty", "responder empty"]
array colours[7] = ["#000000", "#0072b2", "#56b4e9", "#009e73", "#d55e00", "#cc79a7", "#b8860b"]
ways = "library reference"

# The total of a session with lists of 64, if the row is one of this case, call and implementation.
is_total(case, call, way) = strcol(1) eq "64" && strcol(2) eq case && strcol(4) eq call && strcol(5) eq way && strcol(6) eq "all" && strcol(12) eq "measured"
total(case, call, way) = is_total(case, call, way) ? $10 : NaN

stats csv skip 1 using 3 name "n" nooutput
set logscale xy
set xrange [n_min * 0.8 : n_max * 1.25]
set xtics ("1,000" 1000, "4,096" 4096, "16,384" 16384, "65,536" 65536, "262,144" 262144, "1,048,576" 1048576)
set ytics ("100 ns" 1e-7, "1 µs" 1e-6, "10 µs" 1e-5, "100 µs" 1e-4, "1 ms" 1e-3, "10 ms" 1e-2, "100 ms" 1e-1, "1 s" 1, "10 s" 10)
set autoscale yfix
set offsets 0, 0, graph 0.06, graph 0.06
set grid linecolor "#dddddd" linetype 1
set xlabel "items in a table"
unset key

set multiplot layout 2,2 title "Whole sessions, b = 16, t = 64: proved library and plain Rust reference" font ",18"
do for [panel = 1:3] {
    call = word("open answer take", panel)
    set title word("open answers takes", panel) . (panel == 1 ? "" : " (all of a session)") font ",16"
    plot for [c = 1:7] for [w = 1:2] csv skip 1 using 3:(total(cases[c], call, word(ways, w))) with linespoints \
        linewidth 2 linecolor rgb colours[c] dashtype w pointtype (w == 1 ? 7 : 6) pointsize 1.2, \
        for [c = 1:(panel == 1)] csv skip 1 using 3:(total(cases[c], "limit", "reading")) with lines \
        linewidth 3 linecolor rgb "#999999" dashtype 3
}

# The fourth place has the key.
unset title
unset xlabel
unset tics
unset border
unset grid
unset logscale
set xrange [0:1]
set yrange [0:1]
set label "A line that ends early: larger n were not run, being predicted to take too long." at graph 0.5, 0.1 center font ",12"
set key center center maxrows 8 Left reverse samplen 5 spacing 1.8 width 1 font ",15"
plot for [c = 1:7] NaN with linespoints linewidth 2 linecolor rgb colours[c] pointtype 7 pointsize 1.2 title cases[c] . ", library", \
    NaN with lines linewidth 3 linecolor rgb "#999999" dashtype 3 title "reading the table once", \
    for [c = 1:7] NaN with linespoints linewidth 2 linecolor rgb colours[c] dashtype 2 pointtype 6 pointsize 1.2 \
    title cases[c] . ", reference"
unset multiplot
