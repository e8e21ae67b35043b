# Draws one record of residual extinction, as example/extinction.c prints it, to target/extinction.png:
#     target/extinction samples/built-GOM_EXT_2P > target/extinction.txt && gnuplot example/extinction.gnuplot
set terminal png size 900,360 noenhanced font "sans,9"
set output "target/extinction.png"
set title "Residual extinction, record 0 of samples/built-GOM_EXT_2P"
set xlabel "pixel"
set ylabel "transmission"
set xrange [0:2336]
set yrange [-0.05:1.05]
set key at 2250,0.4
where_valid(y, flag) = flag == 0 ? y : NaN
plot "target/extinction.txt" using 1:(where_valid($2, $5)) with points pointtype 7 pointsize 0.3 linecolor rgb "#6699cc" title "measured", \
     "" using 1:(where_valid($4, $5)) with lines linecolor rgb "#992200" title "model"
