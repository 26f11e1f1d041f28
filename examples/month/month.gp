# Draws a month of activation times out of the table of month.sh: above, how long incidents waited for their first order,
# as a box a day (half of them in the box, its bar at the middle one, nine in ten between the whiskers); below, how many
# of a day's incidents had one within 180 s.
set terminal svg size 960, 540 font 'sans-serif,13' background rgb 'white'
set datafile separator ','
stats days using 3 every ::1 nooutput
if (STATS_max == 0) { exit error 'no vehicle was sent in this month' }

set multiplot layout 2, 1 title sprintf('Activation in division %s, %s', division, month)
set lmargin 9
set rmargin 3
set border 3
set tics nomirror
set grid ytics linecolor rgb '#d0d0d0'
set key off
set xrange [0.3 : 31.7]
set xtics 1, 1, 31
set boxwidth 0.6
set style fill solid 0.35 border
day(text) = tm_mday(strptime('%Y-%m-%d', text))

set ylabel 'seconds'
set logscale y
set yrange [10 : 3600 < *]
set ytics (15, 30, 60, 180, 600, 1800, 3600)
set arrow from 0.3, 180 to 31.7, 180 nohead linecolor rgb '#c03020'
set label '180 s' at 31.7, 180 offset -5, 0.7 textcolor rgb '#c03020'
plot days every ::1 using (day(stringcolumn(1))):6:5:9:8 with candlesticks whiskerbars linecolor rgb '#2060a0', \
  days every ::1 using (day(stringcolumn(1))):7:7:7:7 with candlesticks linecolor rgb '#103050' linewidth 2

unset logscale
unset arrow
unset label
set ylabel '% within 180 s'
set yrange [0 : 100]
set ytics 0, 25, 100
set xlabel 'day of the month'
plot days every ::1 using (day(stringcolumn(1))):($2 > 0 ? 100.0 * $4 / $2 : NaN) with boxes linecolor rgb '#2060a0'
unset multiplot
