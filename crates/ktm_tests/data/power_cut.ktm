# The power goes in a commit. What was answered stays; what the power cut off may be there afterwards or not.
p1 CreateTransaction h1 0
p1 KvSet h1 "safe" 01
p1 CommitTransaction h1
restart 1

# A commit makes four calls of the disk. One more passes, and the next one finds no power: this commit is lost for certain.
p1 CreateTransaction h2 0
p1 KvSet h2 "lost" 02
cut 1
p1 CommitTransaction h2
p1 KvGet - "safe"
crash
restart 1
p1 KvList -

# Handles and transactions are gone with the power, and the key is free.
p1 CommitTransaction h2
p1 CreateTransaction h1 0
p1 KvSet h1 "lost" 02
p1 CommitTransaction h1

# Three calls pass, and only the last one fails: the number of the restart decides. With 2 the commit is there,
p1 CreateTransaction h2 0
p1 KvSet h2 "kept" 03
cut 3
p1 CommitTransaction h2
restart 2
p1 KvList -

# and with 7 it is not.
p1 CreateTransaction h1 0
p1 KvSet h1 "again" 04
cut 3
p1 CommitTransaction h1
restart 7
p1 KvList -

# A restart can lose the power as well.
crash
cut 0
restart 1
restart 1
p1 KvGet - "kept"
