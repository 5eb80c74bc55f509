op=part arg=1
op=select arg=0
op=byte arg=5
op=byte arg=0