p1 CreateTransaction h1 0
p1 KvSet h1 "version" 01
p1 KvSet h1 "driver" 0a
p1 KvGet - "version"
p1 CommitTransaction h1
p1 CreateTransaction h2 0
p1 KvSet h2 "version" 02
p1 KvUnset h2 "driver"
cut 3
p1 CommitTransaction h2
restart 7
p1 KvList -
p1 KvGet - "version"
