# Five lines, of which a run that ended early has answered four, and in the last of these the power went.
p1 CreateTransaction h1 0

p1 KvSet h1 "key" 000102030405060708090a0b0c0d0e0f000102030405060708090a0b0c0d0e0f000102030405060708090a0b0c0d0e0f
cut 3
p1 CommitTransaction h1
p1 KvGet - "key"
