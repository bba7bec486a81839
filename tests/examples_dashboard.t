prodash-examples: dashboard
===========================

The first frame enters the alternate screen, and the end leaves it and shows the cursor again.

  $ prodash-examples dashboard >frames
  $ grep -ao '?1049[hl]' frames
  ?1049h
  ?1049l
  $ tail -c 20 frames | grep -ac '?1049l.*?25h'
  1

It shows the information that it was sent, and the tasks with their steps.

  $ grep -ac 'threads' frames
  1
  $ grep -aq 'compress' frames && grep -aq 'verify' frames
  $ grep -aqE '[0-9]+/20' frames
