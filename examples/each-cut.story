life
request hello
request again
slice 42
checkpoint
