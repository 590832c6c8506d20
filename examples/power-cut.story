life
request hello
slice 20
request world
stop 209 300
slice 22
life
request world
stop 272 0
slice 42
life
slice 42
checkpoint
life
