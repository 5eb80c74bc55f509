#p=part arg=1
Op=part arg=1
o#=part arg=1
oP=part arg=1
op#part arg=1
op=#art arg=1
op=Part arg=1
op=p#rt arg=1
op=pArt arg=1
op=pa#t arg=1
op=paRt arg=1
op=par# arg=1
op=parT arg=1
op=part#arg=1
op=part #rg=1
op=part Arg=1
op=part a#g=1
op=part aRg=1
op=part ar#=1
op=part arG=1
op=part arg#1
op=part arg=#
op=part arg=1
op=select arg=0
Op=byte arg=19
 p=byte arg=19
=p=byte arg=19
7p=byte arg=19
mp=byte arg=19
oP=byte arg=19
o =byte arg=19
o==byte arg=19
o7=byte arg=19
om=byte arg=19
op byte arg=19
op7byte arg=19
opmbyte arg=19
op=Byte arg=19
op= yte arg=19
op==yte arg=19
op=7yte arg=19
op=myte arg=19
op=bYte arg=19
op=b te arg=19
op=b=te arg=19
op=b7te arg=19
op=bmte arg=19
op=byTe arg=19
op=by e arg=19
op=by=e arg=19
op=by7e arg=19
op=byme arg=19
op=bytE arg=19
op=byt  arg=19
op=byt= arg=19
op=byt7 arg=19
op=bytm arg=19
op=byte=arg=19
op=byte7arg=19
op=bytemarg=19
op=byte Arg=19
op=byte  rg=19
op=byte =rg=19
op=byte 7rg=19
op=byte mrg=19
op=byte aRg=19
op=byte a g=19
op=byte a=g=19
op=byte a7g=19
op=byte amg=19
op=byte arG=19
op=byte ar =19
op=byte ar==19
op=byte ar7=19
op=byte arm=19
op=byte arg 19
op=byte arg719
op=byte argm19
op=byte arg= 9
op=byte arg==9
op=byte arg=m9
op=byte arg=1 
op=byte arg=1=
op=byte arg=1m
op=byte arg=5
-p=end arg=0
	p=end arg=0
o-=end arg=0
o	=end arg=0
op-end arg=0
op	end arg=0
op=-nd arg=0
op=	nd arg=0
op=e-d arg=0
op=e	d arg=0
op=en- arg=0
op=en	 arg=0
op=end-arg=0
op=end	arg=0
op=end -rg=0
op=end 	rg=0
op=end a-g=0
op=end a	g=0
op=end ar-=0
op=end ar	=0
op=end arg-0
op=end arg	0
op=end arg=-
op=end arg=	
op=byte arg=0
op=end arg=0
