# Two processes meet on a key. Each has labels of its own, so both may call a handle h1.
p1 CreateTransaction h1 0
p2 CreateTransaction h1 0
p1 KvSet h1 "color" 726564

# While the first transaction is undecided the key is its own: the second may read what is committed, but not change it.
p2 KvGet h1 "color"
p2 KvSet h1 "color" 626c7565
p1 KvGet h1 "color"
p1 KvGet - "color"

# The commit sets the key free, and shows its value to all.
p1 CommitTransaction h1
p2 KvGet h1 "color"
p2 KvSet h1 "color" 626c7565
p2 KvSet h1 "size" -
p2 KvList h1
p2 KvList -

# A key may be unset where the transaction sees a value.
p2 KvUnset h1 "size"
p2 KvUnset h1 "size"
p2 KvGet h1 "size"
p2 KvList h1
p2 CommitTransaction h1
p1 KvGet - "color"
p1 KvList -

# An unset key is reserved too.
p1 CreateTransaction h2 0
p2 CreateTransaction h2 4294967295
p1 KvUnset h2 "color"
p2 KvSet h2 "color" 00
p2 KvUnset h2 "color"
p1 CommitTransaction h2
p2 KvUnset h2 "color"
p2 KvList -
p2 CommitTransaction h2
