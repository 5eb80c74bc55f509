op=part arg=1
op=select arg=