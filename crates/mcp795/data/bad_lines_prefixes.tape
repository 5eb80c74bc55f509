
o
op
op=
op=p
op=pa
op=par
op=part
op=part 
op=part a
op=part ar
op=part arg
op=part arg=
op=part arg=2

o
op
op=
op=s
op=se
op=sel
op=sele
op=selec
op=select
op=select 
op=select a
op=select ar
op=select arg
op=select arg=
op=select arg=0

o
op
op=
op=b
op=by
op=byt
op=byte
op=byte 
op=byte a
op=byte ar
op=byte arg
op=byte arg=
op=byte arg=5
op=byte arg=51
op=byte arg=512
op=byte arg=5123
op=byte arg=51234
op=byte arg=512345
op=byte arg=5123456
op=byte arg=51234567

o
op
op=
op=e
op=ev
op=evh
op=evhs
op=evhs 
op=evhs a
op=evhs ar
op=evhs arg
op=evhs arg=
op=evhs arg=1
op=byte arg=0
op=end arg=0
