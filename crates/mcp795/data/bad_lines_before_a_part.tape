op=select arg=0
op=byte arg=6
op=end arg=0
op=wait arg=5
op=cut arg=0
op=up arg=0
op=evls arg=1
op=evhs arg=1
op=wait arg=99999999
op=byte arg=256
op=wait arg=00
op=wait arg=123456789
op=waits arg=5
op=waits arg=05
op=wait arg=
op=wait
op=wait arg=5 
op=wait arg=11111111111111111111111111111111111111111111111111111
op=part arg=0
op=part arg=5
op=part arg=9
op=part arg=99999999
op=part arg=01
op=part arg=123456789
op=parts arg=1
op=par arg=01
op=part arg=
op=part
op=part arg=1 
op=part arg=11111111111111111111111111111111111111111111111111111

op=select arg=0
op=part arg=1
op=select arg=0
op=byte arg=5
op=byte arg=0
op=end arg=0
