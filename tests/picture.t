bin/picture: an animated picture
================================

bin/picture draws the frames of event lines. A row is in the picture once for each text that it has,
and is shown for as long as it has that text. Times are parts of a round, which ends three seconds
after the last frame, and then begins again.

  $ top=$(dirname "$(dirname "$(readlink -f "$(command -v picture)")")")
  $ picture --columns 40 --rows 5 "$top/tests/scripts/throughput.events" >moving
  $ grep -o '<svg.* height="[0-9]*"\|{animation:[^}]*' moving
  <svg xmlns="http://www.w3.org/2000/svg" width="536" height="138"
  {animation:5s step-end infinite
  $ sed -n 's/@keyframes \(.*\)#.*/\1/p' moving
  r0-0{0%{visibility:visible}8%{visibility:hidden}}
  r0-1{0%{visibility:hidden}8%{visibility:visible}16%{visibility:hidden}}
  r0-2{0%{visibility:hidden}16%{visibility:visible}24%{visibility:hidden}}
  r0-3{0%{visibility:hidden}24%{visibility:visible}}
  r1-2{0%{visibility:hidden}16%{visibility:visible}24%{visibility:hidden}}
  r1-3{0%{visibility:hidden}24%{visibility:visible}32%{visibility:hidden}}
  r1-4{0%{visibility:hidden}32%{visibility:visible}34%{visibility:hidden}}
  r1-5{0%{visibility:hidden}34%{visibility:visible}40%{visibility:hidden}}
  r2-3{0%{visibility:hidden}24%{visibility:visible}32%{visibility:hidden}}
  $ tr -d '\n' <moving | sed 's/<g id="/\n/g; s/<[/]svg>/\n/' | sed -n 's/" visib[^>]*>/ /; s/<[^>]*>//g; /^r/p'
  r0-0 copy0/100items [&gt;-------------------]
  r0-1 copy10/100items [=&gt;-----------------]
  r0-2 copy20/100items [===&gt;---------------]
  r0-3 copyhalf
  r1-2 bytes500.0kB/1.0MB[=======&gt;-------]
  r1-3 copy30/100items [====&gt;----------]
  r1-4 copy50/100items |33/s| [=====&gt;------]
  r1-5 copy50/100items |33/s| [===============&gt;----------------]
  r2-3 bytes500.0kB/1.0MB[=======&gt;-------]

docs/dashboard.svg is the picture of a dashboard.

  $ picture --dashboard --columns 96 "$top/docs/dashboard.events" >dashboard.svg
  $ cmp dashboard.svg "$top/docs/dashboard.svg"

A wide character that moves by a column leaves no half.

  $ printf 'title a日本\ntick 1\ntitle 日本\ntick 1000000000\n' >wide
  $ picture --dashboard --columns 24 --rows 3 wide | grep -c '>日本<'
  1

A file whose lines draw no frame, one that has other lines, and one that doesn't exist.

  $ printf 'add 0 a\n' >none
  $ picture none
  picture: none: no line draws a frame
  [1]
  $ printf 'tick 0\ntick\n' >faulty
  $ picture faulty
  picture: line 2: not an event
  [1]
  $ picture missing
  picture: missing: No such file or directory
  [1]
