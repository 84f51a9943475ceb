p1 CreateTransaction h1 0
