# `gnuplot tools/figures/speed.gnuplot`, at the top of the repository, draws speed.svg from speed.csv, and sweep.svg from
# sweep.csv, in docs/. Both have a ground of their own, so that they can be read on a light page and on a dark one.

set datafile separator comma
set datafile missing NaN
set encoding utf8
set border 3 lc '#555555'
set tics nomirror
set grid ytics lc '#dddddd' lt 1
unset key

# A way of making calls has one colour and one mark in both pictures.
set style line 1 lc '#767676' lw 2 dt 2           # serial
set style line 2 lc '#b94a00' lw 2 pt 4  ps 0.9   # mutex
set style line 3 lc '#8a5fa8' lw 2 pt 8  ps 1.1   # locks
set style line 4 lc '#2e9bd6' lw 2 pt 6  ps 1.0   # call
set style line 5 lc '#00539c' lw 3 pt 7  ps 0.9   # engine
set style line 6 lc '#b94a00' lw 2 pt 5  ps 0.8 dt 2
set style line 7 lc '#8a5fa8' lw 2 pt 9  ps 1.0 dt 2
set style line 8 lc '#9cc3e6' lw 2 pt 7  ps 0.7
set style line 9 lc '#5a9bd0' lw 2 pt 7  ps 0.7
set style line 10 lc '#3f8f4a' lw 2 pt 10 ps 1.1  # table

# The number in a column of a row of a scenario and a way; nothing in other rows.
of(scenario, way, column) = strcol(1) eq scenario && strcol(2) eq way ? column(column) : NaN
# In a sweep: nothing in rows of another way or another number of threads.
swept(way, threads, value) = strcol(2) eq way && column(3) == threads ? value : NaN

# Where the figures of a file are from.
origin = ''
note(row) = sprintf("commit %s, %s\n%s", strcol(5), strcol(7), strcol(6))

# ---- speed.svg: a panel for each scenario, in the order of the file

csv = 'docs/speed.csv'
titles = ''
stats csv every ::1 using (origin = note(0), 0) nooutput
stats csv every ::1 using ( \
    strstrt(titles, '|'.strcol(1).'|') ? 0 : (titles = titles.'|'.strcol(1).'|', 0), 0) nooutput

count = 0
array names[7]
rest = titles
while (strlen(rest) > 0 && count < 7) {
    rest = rest[2:*]
    end = strstrt(rest, '|')
    count = count + 1
    names[count] = rest[1:end-1]
    rest = rest[end+1:*]
}

set terminal svg size 1200,640 name 'speed' font 'sans-serif,13' background '#ffffff'
set output 'docs/speed.svg'
set multiplot layout 2,4 title "Nanoseconds a call, by the number of threads: less is better" font ',16' \
    margins 0.06,0.985,0.12,0.86 spacing 0.055,0.16
set logscale y
set xrange [0.7:4.3]
set yrange [50:5000]
set xtics (1, 2, 4)
set ytics (50, 100, 200, 500, "1,000" 1000, "2,000" 2000, "5,000" 5000)
do for [i = 1:count] {
    set title names[i] font ',13' offset 0,-0.5
    plot csv every ::1 using (0.7):(of(names[i], 'serial', 4)):(3.6):(0) with vectors nohead ls 1, \
        csv every ::1 using (of(names[i], 'mutex', 3)):(of(names[i], 'mutex', 4)) with linespoints ls 2, \
        csv every ::1 using (of(names[i], 'locks', 3)):(of(names[i], 'locks', 4)) with linespoints ls 3, \
        csv every ::1 using (of(names[i], 'table', 3)):(of(names[i], 'table', 4)) with linespoints ls 10, \
        csv every ::1 using (of(names[i], 'call', 3)):(of(names[i], 'call', 4)) with linespoints ls 4, \
        csv every ::1 using (of(names[i], 'engine', 3)):(of(names[i], 'engine', 4)) with linespoints ls 5
}
# The last panel tells the ways apart.
unset title
unset border
unset tics
unset grid
set key at graph -0.1, graph 1.05 left top Left reverse samplen 4 spacing 1.3 font ',13'
set label 1 origin at graph -0.08, graph 0.12 left noenhanced font ',10' tc '#555555'
plot NaN with lines ls 1 title 'serial: one thread, no lock', \
    NaN with linespoints ls 2 title 'one mutex round each call', \
    NaN with linespoints ls 3 title 'a lock in each record', \
    NaN with linespoints ls 10 title 'a lock table', \
    NaN with linespoints ls 4 title 'Client::call', \
    NaN with linespoints ls 5 title "the engine's workers"
unset multiplot
unset label 1
unset output

# ---- sweep.svg: calls a second, as fewer records are hot

csv = 'docs/sweep.csv'
origin = ''
unset logscale y
set xrange [*:*]
set yrange [*:*]
stats csv every ::1 using (origin = note(0), 0) nooutput
set terminal svg size 960,520 name 'sweep' font 'sans-serif,13' background '#ffffff'
set output 'docs/sweep.svg'
set border 3 lc '#555555'
set grid ytics lc '#dddddd' lt 1
set title "Million calls a second, ten claims a call, one of them hot: more is better" font ',16'
set xlabel 'contention index: 1 divided by the number of hot records'
set label 1 origin at screen 0.99, 0.06 right noenhanced font ',10' tc '#555555'
set logscale x
set xrange [0.00007:1.4]
set yrange [0:*]
set xtics ("0.0001" 0.0001, "0.001" 0.001, "0.01" 0.01, "0.1" 0.1, "1" 1) nomirror
set ytics autofreq nomirror
set bmargin 5
set key outside right center vertical samplen 3 spacing 1.5 font ',13'
rate(way, threads) = swept(way, threads, 1000.0 / column(4))
plot csv every ::1 using (1.0 / column(1)):(rate('engine', 4)) with linespoints ls 5 title '4 workers', \
    csv every ::1 using (1.0 / column(1)):(rate('engine', 2)) with linespoints ls 9 title '2 workers', \
    csv every ::1 using (1.0 / column(1)):(rate('engine', 1)) with linespoints ls 8 title '1 worker', \
    csv every ::1 using (1.0 / column(1)):(rate('mutex', 1)) with linespoints ls 2 title 'mutex, 1 thread', \
    csv every ::1 using (1.0 / column(1)):(rate('mutex', 4)) with linespoints ls 6 title 'mutex, 4 threads', \
    csv every ::1 using (1.0 / column(1)):(rate('locks', 1)) with linespoints ls 3 title 'locks, 1 thread', \
    csv every ::1 using (1.0 / column(1)):(rate('locks', 4)) with linespoints ls 7 title 'locks, 4 threads'
unset output
