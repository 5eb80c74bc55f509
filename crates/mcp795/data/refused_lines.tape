
op=part
op=part 
op=part arg=
op=part arg=01
op=part arg=000000001
op=part arg=1 
op=part  arg=1
 op=part arg=1
op=Part arg=1
OP=part arg=1
op=parts arg=1
op=par arg=1
op= arg=1
op=part	arg=1
op=part arg=-1
op=part arg=+1
op=part arg=1x
op=part arg=0x1
op=part arg=1.
part=1
arg=1 op=part
op=part arg=1
op=select arg=0
op=byte
op=byte arg=06
op=byte arg=00
op=byte arg=000000006
op=byte arg=100000000
op=byte arg=6 
op=byte  arg=6
op=bytes arg=6
op=byt arg=6
op=select
op=end arg=00
op=wait arg=00000001
op=read arg=0
op=byte arg=6 op=byte arg=6
op=cut arg=
op=up
op= up arg=0
op =up arg=0
op=up arg =0
op=up arg= 0
op=uparg=0
op=up arg=0,
op=byte arg=5
op=byte arg=0
op=end arg=0
