op=part arg=1
op=part arg=1
op=select arg=0

op=select arg=0
op=end arg=0
op=endarg=0
op=end arg=0