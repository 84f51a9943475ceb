p1 CreateTransaction h1 0
p1 KvSet h1 "k" 01
p1 KvGet - "k"
p1 KvGet h1 "k"
p1 CommitTransaction h1
p1 KvGet - "k"
p1 KvSet h1 "k" 02
p1 CreateTransaction h1 0
nonsense
