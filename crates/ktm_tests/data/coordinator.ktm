# A coordinator has an order carried out by two services together, the stock and the bank: both carry it out, or neither does.
# Process 1 is the coordinator, process 2 the stock, process 3 the bank. What the services keep is their own affair; the
# machine tells them how far the transaction has come, waits for their answers, and remembers what they decided.

# Each service has a resource manager, in whose queue it finds what it is told. They are durable: a restart finds them again.
p2 CreateResourceManager h1 durable
p3 CreateResourceManager h1 durable

# An order is a transaction, in which the coordinator notes it under a key. The services open the transaction by its GUID, and
# enlist in it.
p1 CreateTransaction h1 0
p1 KvSet h1 "order" 01
p2 OpenTransaction h2 00000001-0001-0001-0000-000000000001
p2 CreateEnlistment h3 h1 h2 plain
p3 OpenTransaction h2 00000001-0001-0001-0000-000000000001
p3 CreateEnlistment h3 h1 h2 plain

# The coordinator asks for the commit. Nobody waits: it is pending until both services have voted.
p1 CommitTransaction h1

# Both are asked to prepare. The stock can carry the order out and can drop it, and votes for it. The bank votes against.
p2 GetNotificationResourceManager h1
p2 PrepareComplete h3
p1 GetTransactionInformation h1
p3 GetNotificationResourceManager h1
p3 RollbackEnlistment h3

# One vote against is enough. The transaction has rolled back, its key was never there, and both are told and say when they
# are done.
p1 GetTransactionInformation h1
p1 KvGet - "order"
p2 GetNotificationResourceManager h1
p2 RollbackComplete h3
p3 GetNotificationResourceManager h1
p3 RollbackComplete h3
p3 GetNotificationResourceManager h1

# The same with a second order. Each service leaves with its enlistment what a restart is to give back to it: two pieces, and
# the price.
p1 CreateTransaction h2 0
p1 KvSet h2 "order" 02
p2 OpenTransaction h4 00000001-0001-0001-0000-000000000002
p2 CreateEnlistment h5 h1 h4 plain
p2 SetEnlistmentRecoveryInformation h5 02
p3 OpenTransaction h4 00000001-0001-0001-0000-000000000002
p3 CreateEnlistment h5 h1 h4 plain
p3 SetEnlistmentRecoveryInformation h5 03e7
p1 CommitTransaction h2
p2 GetNotificationResourceManager h1
p3 GetNotificationResourceManager h1

# The first vote for it decides nothing. With the last one it has committed: its key is there, and from here on no loss of
# power takes that back.
p2 PrepareComplete h5
p1 GetTransactionInformation h2
p3 PrepareComplete h5
p1 GetTransactionInformation h2
p1 KvGet - "order"

# The stock is told, and is done. The power goes before the bank is.
p2 GetNotificationResourceManager h1
p2 CommitComplete h5
crash
restart 1

# All handles are gone, and the queues are empty; what was recorded is there. The bank opens its resource manager, asks what
# is left for it, and is told of one enlistment.
p1 KvGet - "order"
p3 OpenResourceManager h1 00000001-0002-0001-0000-000000000002
p3 GetNotificationResourceManager h1
p3 RecoverResourceManager h1
p3 GetNotificationResourceManager h1
p3 GetNotificationResourceManager h1

# It opens that enlistment, reads what it left there, and asks what became of it. The answer is to commit.
p3 OpenEnlistment h3 h1 00000001-0003-0001-0000-000000000004
p3 GetEnlistmentRecoveryInformation h3
p3 RecoverEnlistment h3
p3 GetNotificationResourceManager h1
p1 OpenTransaction h1 00000001-0001-0001-0000-000000000002
p1 GetTransactionInformation h1
p3 CommitComplete h3

# Nobody has anything left to do: the transaction is over, and the stock is told of nothing.
p1 GetTransactionInformation h1
p1 OpenTransaction h2 00000001-0001-0001-0000-000000000002
p2 OpenResourceManager h1 00000001-0002-0001-0000-000000000001
p2 RecoverResourceManager h1
p2 GetNotificationResourceManager h1
