p1 KvGet - "k"
p1 CreateTransaction h1 0
